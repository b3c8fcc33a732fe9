-- What a set has: rows of docs/SETS.md and docs/SCHEMES.md, by functions of texts. No row is wrong. Each scheme is
-- tried on all of its rows by tests/postgresql of the repository.
CREATE TEMP TABLE wanted (scheme text, s text, yes text[], no text[]);
INSERT INTO wanted VALUES
  ('mixed', '>=1.2, <2', '{1.2,1.2.5,1.9.0-rc.1}', '{1.2rc1,2,2.0.0-rc.1}'),
  ('mixed', '^1.2', '{1.2,1.2.5,1.2.0-rc.1,1.10,1.2_3}', '{1.1.9,1.2rc1,2,2.0.0-rc.1}'),
  ('mixed', '^0.2.3', '{0.2.3,0.2.9}', '{0.3,0.2.2}'),
  ('mixed', '~1.2.3', '{1.2.3,1.2.4,1.2.3.1}', '{1.2.3-rc.1,1.3.0}'),
  ('mixed', '~1.2', '{1.2,1.5}', '{2,1.1}'),
  ('mixed', '~1', '{1,1.5}', '{2,0.9}'),
  ('mixed', '=1.2.*', '{1.2,1.2-1,1.2.0-rc.1,1.2.x}', '{1.2rc1,1.20}'),
  ('mixed', '!=1.5, >=1', '{1.5.1,1}', '{1.5,0:1.5,1.5+x,0.9}'),
  ('mixed', '<1 || >=2 <3', '{0.9,2.5}', '{1,3}'),
  ('deb', '>=1.0, <2', '{1.0-1,2~rc1}', '{1.0~rc1,2-0}'),
  ('deb', '<<2, >>1.0', '{1.0-1,2~rc1}', '{1.0,2}');
SELECT scheme, s, v FROM wanted, unnest(yes) v
  WHERE version_in_set(s, v, scheme) IS NOT TRUE OR version_in_set(version_set(s, scheme), v) IS NOT TRUE
    OR version_in_set(scheme || ':' || s, v) IS NOT TRUE;
SELECT scheme, s, v FROM wanted, unnest(no) v
  WHERE version_in_set(s, v, scheme) IS NOT FALSE OR version_in_set(version_set(s, scheme), v) IS NOT FALSE
    OR version_in_set(scheme || ':' || s, v) IS NOT FALSE;
SELECT s, v FROM wanted, unnest(yes || no) v
  WHERE scheme = 'mixed' AND (version_in_set(s, v), v::version <@ s::version_set) <> (v = ANY (yes), v = ANY (yes));
-- The same set in all rows, and another in each, are read alike.
SELECT sum(version_in_set('>=1.5', '1.' || n)::int), sum(version_in_set('>=1.' || n, '1.5')::int),
  sum(version_in_set('>=1.5~', '1.' || n, CASE WHEN n % 2 = 0 THEN 'deb' ELSE 'rpm' END)::int)
  FROM generate_series(1, 10) n;
-- NULL, what is no version and no set.
SELECT version_in_set(NULL, '1'), version_in_set('*', NULL), version_in_set('*', '1', NULL),
  version_in_set('*', 'x y'), version_in_set('*', '1_0', 'deb'), version_in_set(version_set('*', 'deb'), '1_0');
SELECT version_in_set('>=1.2,', '1');
SELECT version_in_set('~1.2', 'x y', 'deb');
SELECT version_in_set('deb:>=1', '1', 'rpm');
-- The type: it prints as it was written, with the scheme in front of that of another than mixed.
SELECT version_set '>=1.2,  <2 || ^3', 'deb:>=1.2~'::version_set, version_set('>=1.2~', 'deb'),
  version_set('>=1', 'mixed'), version_set('rpm:>=1', 'rpm');
SELECT version_set_scheme(s), s FROM unnest('{>=1,"mixed:>=1",deb:>=1,Debian:>=1}'::version_set[]) s;
SELECT version_set '>=1 | <2';
SELECT version_set 'deb:~1.2';
SELECT version_set '';
SELECT version_set('deb:>=1', 'rpm');
-- Sets are equal if they have the same keys of one scheme.
SELECT a = b AS eq, a <> b AS ne FROM (VALUES (version_set '>=1.2, <2', version_set '<2 >=0:1.2'), ('=1', '=1.0'),
  ('deb:=1.0', 'deb:=1.0-0'), ('*', 'deb:*'), ('>=1 || <1', '*'), ('*', NULL)) t (a, b);
SELECT version_set_hash(a) = version_set_hash(b) AS hash, version_set_hash_extended(a, 7) =
  version_set_hash_extended(b, 7) AS extended, version_set_hash_extended(a, 7) = version_set_hash_extended(a, 8) AS seed
  FROM (VALUES (version_set '>=1.2, <2', version_set '<2 >=0:1.2'), ('=1', '=1.0')) t (a, b);
SELECT count(DISTINCT s), count(*) FROM unnest('{^1.2,"~1.2","~1.2 || ^1.2.5","deb:>=1"}'::version_set[]) s;
CREATE TEMP TABLE kept (s version_set PRIMARY KEY);
INSERT INTO kept VALUES ('>=1.2, <2'), ('>=1.2');
INSERT INTO kept VALUES ('<2 >=1.2');
-- Two sets.
SELECT a @> b AS has_all, a <@ b AS is_part, a && b AS meet FROM (VALUES (version_set '^1.2', version_set '~1.2.3'),
  ('<2', '>=2'), ('<2', '>1'), ('*', '>1 <1'), ('deb:>=1', 'deb:>=2')) t (a, b);
SELECT s * '<2' = '>=1.2, <2' AS both, s + '<2' = '*' AS either, s - '<2' = '>=2' AS rest, ~s = '<1.2' AS complement
  FROM (VALUES (version_set '>=1.2')) t (s);
SELECT version_set 'deb:*' - '*';
-- A computed set prints as its form, which its input takes.
SELECT (~s)::text ~ '^\\x[0-9a-f]+$' AS is_form, (~s)::text::version_set = ~s AS same,
  ~(~s)::text::version_set = s AS back, version_set_scheme((~s)::text::version_set)
  FROM unnest('{>=1.2,deb:<2,* <1 >1}'::version_set[]) s;
SELECT version_set '\x00';
SELECT version '1' <@ version_set 'deb:>=1';
SELECT deb_version '1' <@ 'rpm:>=1';
-- A set of versions of a column: conditions between its outermost ends, and a filter where it has gaps. A bare literal
-- beside a version of mixed is a requirement.
CREATE TABLE packages (v version);
INSERT INTO packages SELECT format('%s.%s.%s', a, b, c)::version
  FROM generate_series(0, 4) a, generate_series(0, 19) b, generate_series(0, 29) c;
CREATE INDEX by_version ON packages (v);
SET synchronous_commit = on;
VACUUM ANALYZE packages;
SET enable_seqscan = off;
SET enable_bitmapscan = off;
EXPLAIN (COSTS OFF) SELECT * FROM packages WHERE v <@ version_set '^1.2';
EXPLAIN (COSTS OFF) SELECT * FROM packages WHERE version_set '>=1.2, <1.3 || >=1.5, <1.6' @> v;
EXPLAIN (COSTS OFF) SELECT * FROM packages WHERE version_in_set('>=1.2 <1 || >=4.19', v);
EXPLAIN (COSTS OFF) SELECT * FROM packages WHERE v <@ version_set '=1 =2';
EXPLAIN (COSTS OFF) SELECT * FROM packages WHERE v <@ version_set '*';
EXPLAIN (COSTS OFF) SELECT * FROM packages WHERE v <@ '^1.2.0';
SELECT count(*) FROM packages WHERE v <@ version_set '^1.2';
SELECT count(*) FROM packages WHERE version_set '>=1.2, <1.3 || >=1.5, <1.6' @> v;
SELECT count(*) FROM packages WHERE v <@ version_set '=1 =2';
CREATE TABLE wishes (s version_set);
INSERT INTO wishes VALUES ('^1.2'), ('>=1.2, <1.3 || >=1.5, <1.6'), ('=1 =2'), ('<0.1 || >=4.19'), (NULL);
EXPLAIN (COSTS OFF) SELECT * FROM wishes JOIN packages ON v <@ s;
SELECT s, count(*) FROM wishes JOIN packages ON v <@ s GROUP BY s ORDER BY s::text;
DROP TABLE packages, wishes;
-- The outermost ends, for an index of the keys of texts.
SELECT version_low(s) = version_key('1.2', 'mixed') AS low, version_high(s) = version_key('2', 'mixed') AS high
  FROM (VALUES (version_set '>=1.2, <1.3 || >=1.5, <2')) t (s);
SELECT version_low(version_set 'deb:>=1.2') = version_key('1.2', 'deb'), version_high(version_set 'deb:>=1.2'),
  version_low(version_set '*'), version_high(version_set '=1 =2');
