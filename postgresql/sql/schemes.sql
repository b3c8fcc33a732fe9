-- Schemes by their names. The rows come from docs/SCHEMES.md, and those of mixed from docs/ORDER.md. Each scheme is
-- tried on all rows by tests/postgresql of the repository.
SELECT scheme, a, b, version_compare(a, b, scheme), version_compare(b, a, scheme) AS back,
  version_key(a, scheme) < version_key(b, scheme) AS lt, version_key(a, scheme) = version_key(b, scheme) AS eq
  FROM (VALUES ('mixed', '1.9', '1.10'), ('mixed', '1.0', '0:1.0'),
    ('deb', '1.0~rc1', '1.0'), ('deb', '1.0-1', '1.0+b1'), ('deb', '1.0', '1.0-0'), ('deb', '9', '1:0'),
    ('rpm', '1.0', '1.0^git1'), ('rpm', '1.0^git1', '1.0a'), ('rpm', '1.a', '1_a'), ('rpm', '1.0', '1.0-0')) t (scheme, a, b);
-- A text that is no version of the scheme, and NULL.
SELECT version_key('1_0', 'deb'), version_compare('1_0', '1', 'deb'), version_compare('1', '1_0', 'deb'),
  version_key('1_0', 'mixed') IS NOT NULL AS mixed;
SELECT version_key(NULL, 'deb'), version_key('1', NULL), version_compare('1', '2', NULL),
  version_compare(NULL, '2', 'maven');
-- The types. Input, output and casts.
SELECT deb_version '1.0~rc1', '1.a'::rpm_version, rpm_version('1_a'), '1.0-1'::text::deb_version::varchar(3);
SELECT deb_version '1_0';
SELECT '1-'::text::rpm_version;
SELECT to_deb_version('1.0~rc1'), to_deb_version('1_0'), is_version('1_0', 'deb'),
  version_compare(deb_version '1.0~rc1', '1.0');
SELECT deb_version '1' = version '1';
-- The order is the scheme's, and versions that tie are equal.
SELECT v FROM unnest('{1.0.1,1.0+b,9,1:0,1.0,1.0a,1.0~rc1}'::deb_version[]) v ORDER BY v;
SELECT v FROM unnest('{1.0.1,1.0a,1.0^git1,1.0,1.0~rc1}'::rpm_version[]) v ORDER BY v;
SELECT max(v), min(v), count(DISTINCT v) FROM unnest('{1.9,NULL,1.10-0,1.10,1.010,1.9~}'::deb_version[]) v;
SELECT a < b AS lt, a <= b AS le, a = b AS eq, a <> b AS ne, a >= b AS ge, a > b AS gt
  FROM (VALUES (deb_version '1.0~', deb_version '1.0'), ('1.0', '1.0-0'), ('1.0+b1', '1.0-1'), ('1', NULL)) t (a, b);
SELECT deb_version_hash('1.0') = deb_version_hash('1.0-0') AS hash, deb_version_hash('1.0') = deb_version_hash('1.1')
  AS other, rpm_version_hash_extended('1.a', 7) = rpm_version_hash_extended('1_a', 7) AS extended;
-- Indexes. Plans need pages that VACUUM marks as visible to all, which it does once the commit is on the disk.
SET synchronous_commit = on;
CREATE TABLE debs (v deb_version PRIMARY KEY);
INSERT INTO debs SELECT format('1.%s~rc%s-%s', a, b, c)::deb_version
  FROM generate_series(0, 30) a, generate_series(0, 9) b, generate_series(1, 9) c;
INSERT INTO debs VALUES ('1.01~rc2-03');
CREATE INDEX ON debs USING hash (v);
VACUUM ANALYZE debs;
SET enable_seqscan = off;
SET enable_bitmapscan = off;
SELECT v FROM debs WHERE v = '1.010~rc4-07';
EXPLAIN (COSTS OFF) SELECT max(v) FROM debs;
SELECT max(v), min(v) FROM debs;
-- A bare literal beside a version of another scheme than mixed is a set of that scheme.
EXPLAIN (COSTS OFF) SELECT v FROM debs WHERE v <@ '>=1.3~, <<1.4~';
SELECT count(*), min(v), max(v) FROM debs WHERE v <@ '>=1.3~, <<1.4~';
SELECT count(*) FROM debs WHERE '>=1.3~, <<1.4~'::text @> v;
DROP TABLE debs;
-- The operator classes are complete: each type of versions has the two that the type version has.
SELECT amname, bool_and(amvalidate(o.oid)), count(*) = (SELECT count(*) FROM pg_type WHERE typname ~ '^[a-z]+_version$')
  FROM pg_opclass o JOIN pg_am a ON a.oid = opcmethod WHERE opcname ~ '_version_ops$' GROUP BY 1 ORDER BY 1;
SELECT opcname, amname, amvalidate(o.oid) FROM pg_opclass o JOIN pg_am a ON a.oid = opcmethod
  WHERE opcname = 'version_set_ops' ORDER BY 1, 2;
