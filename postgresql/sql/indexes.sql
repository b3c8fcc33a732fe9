-- The conditions of index scans: bounds, in order of keys. docs/REQUIREMENTS.md has the bounds.
-- Plans need pages that VACUUM marks as visible to all, which it does once the commit is on the disk.
SET synchronous_commit = on;
CREATE TABLE packages (v version, name text);
INSERT INTO packages SELECT v::version, 'package-' || row_number() OVER () FROM (
  SELECT format(form, a, b, c) AS v FROM generate_series(0, 4) a, generate_series(0, 11) b, generate_series(0, 3) c,
    unnest(ARRAY['%s.%s.%s', '%s.%s.%s-rc.1', '%s.%s.%s+x', '%s.%s', '%1$s.0.%2$s.%3$s', '%s.%src%s', '1:%s.%s',
      '%s.%s_%s', '0%s.%s', '%2$s', '%s.%s.%s~deb1', '%s.%sa.%s', '0.%s.%s']) form
  ) t;
INSERT INTO packages VALUES (NULL, 'none');
CREATE INDEX by_version ON packages (v);
CREATE INDEX by_name ON packages (name, v);
VACUUM ANALYZE packages;
SET enable_seqscan = off;
SET enable_bitmapscan = off;
EXPLAIN (COSTS OFF) SELECT * FROM packages WHERE v <@ '>=1.2.3,<2.0.0';
EXPLAIN (COSTS OFF) SELECT * FROM packages WHERE v <@ '^1.2.3';
EXPLAIN (COSTS OFF) SELECT * FROM packages WHERE v <@ '~1.2';
EXPLAIN (COSTS OFF) SELECT * FROM packages WHERE requirement '=1.0' @> v;
EXPLAIN (COSTS OFF) SELECT * FROM packages WHERE version_matches('>1.0', v);
EXPLAIN (COSTS OFF) SELECT * FROM packages WHERE v <@ '*';
EXPLAIN (COSTS OFF) SELECT * FROM packages WHERE name = 'package-7' AND v <@ '<=1.0';
EXPLAIN (COSTS OFF) SELECT v FROM packages WHERE v <@ '>=1.2,<2' ORDER BY v DESC LIMIT 1;
EXPLAIN (COSTS OFF) SELECT * FROM packages WHERE v <@ '>=1.2,<2' AND v >= '1.5';
-- A parameter, a column of another table, and an index of some rows.
SET plan_cache_mode = force_generic_plan;
PREPARE matching (requirement) AS SELECT count(*) FROM packages WHERE v <@ $1;
EXPLAIN (COSTS OFF) EXECUTE matching ('^1.2');
CREATE TABLE wishes (r requirement);
INSERT INTO wishes VALUES ('^1.2'), ('>=1.2,<2'), ('*'), ('<1'), ('>=4.11'), (NULL);
EXPLAIN (COSTS OFF) SELECT * FROM wishes JOIN packages ON v <@ r;
SELECT r, count(*), count(*) = (SELECT count(*) FROM packages WHERE version_matches(r::text, v::text)) AS is_right
  FROM wishes JOIN packages ON v <@ r GROUP BY r ORDER BY r::text;
CREATE INDEX of_some ON packages (name) WHERE v <@ '~1.2';
EXPLAIN (COSTS OFF) SELECT name FROM packages WHERE v <@ '~1.2' ORDER BY name;
DROP INDEX of_some;
-- Four hundred lists: an index scan, a sequential scan and a parameter give the rows that version_matches gives for
-- texts. No list is wrong.
SELECT setseed(0.5);
CREATE TABLE lists AS
  SELECT n, string_agg((ARRAY['=', '>', '>=', '<', '<=', '~', '^'])[1 + floor(random() * 7)::int] || v, ',') AS list
    FROM (SELECT n, CASE WHEN random() < 0.4 THEN (SELECT p.v::text FROM packages p WHERE p.v IS NOT NULL
          AND n + m > 0 ORDER BY random() LIMIT 1)
        ELSE format((ARRAY['%s.%s', '%s.%s.%s', '%s', '1:%s.%s', '%s.%s.%s-rc.1', '0.%s.%s', '0.0.%s', '%s.%s_1'])
          [1 + floor(random() * 8)::int], floor(random() * 5), floor(random() * 12), floor(random() * 4)) END AS v
      FROM generate_series(1, 400) n, generate_series(1, 2) m WHERE m = 1 OR n % 3 = 0) t
    GROUP BY n;
CREATE FUNCTION rows_of(condition text, way text, OUT rows bigint[]) LANGUAGE plpgsql AS $$
BEGIN
  PERFORM set_config('enable_seqscan', (way = 'seqscan')::text, true),
    set_config('enable_indexscan', (way = 'indexscan')::text, true),
    set_config('enable_indexonlyscan', 'off', true);
  EXECUTE 'SELECT array_agg(substr(name, 9)::bigint ORDER BY name) FROM packages WHERE ' || condition INTO rows;
END $$;
SELECT n, list FROM (
  SELECT n, list, rows_of(format('version_matches(%L, v::text)', list), 'seqscan') AS wanted FROM lists
  ) t, LATERAL (VALUES (rows_of(format('v <@ %L', list), 'indexscan')), (rows_of(format('v <@ %L', list), 'seqscan')),
    (rows_of(format('v <@ (SELECT %L::requirement)', list), 'indexscan'))) u (given)
  WHERE given IS DISTINCT FROM wanted;
SELECT count(*), count(DISTINCT n) > 390 AS are_many FROM lists;
SELECT count(*) > 150 AS many_match FROM lists WHERE EXISTS (SELECT FROM packages WHERE version_matches(list, v::text));
-- The estimates: between the bounds, not a constant.
CREATE FUNCTION is_near(list text) RETURNS boolean LANGUAGE plpgsql AS $$
DECLARE
  plan json;
  wanted bigint;
  estimated bigint;
BEGIN
  EXECUTE format('EXPLAIN (FORMAT JSON) SELECT * FROM packages WHERE v <@ %L', list) INTO plan;
  estimated := plan -> 0 -> 'Plan' ->> 'Plan Rows';
  SELECT count(*) INTO wanted FROM packages
    WHERE v >= requirement_low(list::requirement) AND v < requirement_high(list::requirement);
  RETURN estimated BETWEEN wanted / 2 - 100 AND wanted * 2 + 100;
END $$;
SELECT list FROM unnest(ARRAY['*', '>=1.2,<2', '^1.2.3', '~1.2', '=1.2.3', '<0.5', '>=4.11', '>=1:0']) list
  WHERE NOT is_near(list);
DROP TABLE packages, wishes, lists;
DROP FUNCTION rows_of, is_near;
-- Columns of texts, by the indexes that docs/SQL.md names.
RESET plan_cache_mode;
CREATE TABLE texts AS SELECT '1.' || n AS t FROM generate_series(1, 5000) n UNION ALL SELECT 'x y';
CREATE INDEX by_key ON texts (version_key(t) DESC NULLS LAST);
CREATE INDEX by_version ON texts (to_version(t));
VACUUM ANALYZE texts;
EXPLAIN (COSTS OFF) SELECT t FROM texts ORDER BY version_key(t) DESC NULLS LAST LIMIT 1;
EXPLAIN (COSTS OFF) SELECT max(to_version(t)) FROM texts;
EXPLAIN (COSTS OFF) SELECT t FROM texts WHERE to_version(t) <@ '~1.4990';
SELECT max(to_version(t)) FROM texts;
SELECT count(*) FROM texts WHERE to_version(t) <@ '~1.4990';
DROP TABLE texts;
