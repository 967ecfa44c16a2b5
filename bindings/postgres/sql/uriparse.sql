-- Each kind of function, and the type, in a server that runs: make installcheck.
CREATE EXTENSION uriparse;
SELECT uri_valid('http://h/%7e'), uri_valid('a b'), uri_is_uri('a'), uri_fault('http://h/a b');
SELECT uri_scheme(t), uri_authority(t), uri_username(t), uri_password(t), uri_host(t), uri_port(t), uri_path(t), uri_query(t), uri_fragment(t)
  FROM (VALUES ('HTTP://u:p@h:080/a?b#c')) AS v (t);
SELECT uri_normalize('HTTP://H/%7e/../a'), uri_resolve('http://a/b/c/d;p?q', '../g'), uri_relativize('http://a/b/c', 'http://a/g');
SELECT uri_origin('HTTPS://u@H:443/a'), uri_host_kind('//[::1]'), uri_host_flags('//%31.2.3.4'), uri_default_port('https');
SELECT uri_is_within('http://h/app/x', 'http://h/app/'), uri_host_is_within('//www.example.com', 'example.com');
SELECT uri_same_origin('http://h/a', 'HTTP://H:80'), uri_is_normalized('http://h'), uri_is_ambiguous('..;a'), uri_port_or_default('https://h'),
  uri_host_inet('//[::1]:80');
SELECT uri_param_values('?a=1&b&%61=R%26D&a', 'a'), uri_form_decode('a+b'), uri_trim_link(' <URL:http://h/> ');
SELECT * FROM uri_pairs('?a=1&b=%26&c');
SELECT * FROM uri_segments('http://h/a%2Fb//');
SELECT uri_host_is_within_any('//a.example.org', 'example.com example.org'), uri_without_default_port('HTTP://H:080/%7e'),
  uri_mask_password('ftp://u:secret@h'), uri_request_target('http://h?q');
SELECT uri_param('?q=R%26D', 'q'), uri_with_param('?p=1', 'p', 'a&b'), uri_with_appended_param('?a', 'a', NULL),
  uri_without_params('?utm_id=1&q', 'utm_*'), uri_without_param('?a*&ab', 'a*');
SELECT uri_replace('//h', 'port', '80'), uri_encode('segment', 'a/b'), uri_decode('a%2Fb'), uri_escape('a b');
CREATE TABLE ids (url uri PRIMARY KEY);
INSERT INTO ids VALUES ('http://h/%7e'), ('//h:10'), ('//h:9');
INSERT INTO ids VALUES ('HTTP://H:/~');
INSERT INTO ids VALUES ('a b');
UPDATE ids SET url = uri_replace(url, 'port', '70000');
SELECT url FROM ids ORDER BY url;
SELECT url FROM ids WHERE url = text 'HTTP://H/~';
