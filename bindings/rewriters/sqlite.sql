-- Makes the links of a page absolute: sqlite3 -bail :memory: '.load uri0' ".param set :base 'BASE'" '.read sqlite.sql' < PAGE
-- A link that is no URI stays.
WITH RECURSIVE pieces (number, piece, rest) AS (
  SELECT 0, NULL, rtrim(CAST(readfile('/dev/stdin') AS TEXT), char(10)) || 'href="'
  UNION ALL
  SELECT number + 1, substr(rest, 1, instr(rest, 'href="') - 1), substr(rest, instr(rest, 'href="') + 6) FROM pieces WHERE rest <> ''
), links AS (
  SELECT number, piece, substr(piece, 1, instr(piece, '"') - 1) AS link FROM pieces WHERE number > 0 ORDER BY number
)
SELECT group_concat(CASE number
    WHEN 1 THEN piece
    ELSE coalesce(uri_resolve(:base, uri_escape(link)), link) || substr(piece, length(link) + 1)
  END, 'href="') FROM links;
