-- Makes the links of a page absolute: psql -AtX -v base=BASE -f postgres.sql < PAGE. A link that is no URI stays.
\set page `cat`
SELECT string_agg(CASE number
    WHEN 1 THEN piece
    ELSE coalesce(uri_resolve(:'base', uri_escape(link)), link) || substr(piece, length(link) + 1)
  END, 'href="' ORDER BY number)
FROM string_to_table(:'page', 'href="') WITH ORDINALITY AS pieces (piece, number), split_part(piece, '"', 1) AS link;
