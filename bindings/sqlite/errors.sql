-- Each statement but the last is an error, for valgrind and the sanitizers. The last line is "ok".
SELECT uri_without_params();
CREATE VIEW called AS SELECT uri_without_params();
SELECT * FROM called;
SELECT uri_valid();
SELECT uri_without_params('?a', 'b#');
SELECT uri_without_params('a', hex(zeroblob(3000)) || ' ');
SELECT uri_replace('a', 'authority', 'h');
SELECT uri_encode(hex(zeroblob(3000)), 'a');
SELECT uri_encode(x'', 'a');
SELECT uri_check('http://h/a b');
SELECT 'ok';
