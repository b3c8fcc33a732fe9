-- The type: input, output and casts.
SELECT version '1.2.3-rc.1+x86', '0:1.0'::version, version('01.0'), ('1.0'::text || 'x')::version::varchar(3);
SELECT version '1..2';
SELECT 'x y'::text::version;
SELECT version '1' = '1'::text;
-- The order: each row's versions in ascending order.
SELECT a, b, a < b AS lt, a <= b AS le, a = b AS eq, a <> b AS ne, a >= b AS ge, a > b AS gt
  FROM (VALUES (version '1.9', version '1.10'), ('1.0', '0:1.0'), ('1:0.1', '9.9'), ('1.0', NULL)) t (a, b);
SELECT v FROM unnest(ARRAY['10:1', '1.0.0', '1.0rc1', NULL, '1.2', '1.0.0-a', '1.0', '9:1', '1.0.0-7a', '1.10',
  '1.0.0--a', '1:0.1']::version[]) v ORDER BY v;
SELECT max(v), min(v), count(DISTINCT v) FROM unnest(ARRAY['1.9', NULL, '1.10', '0:1.10', '1.0']::version[]) v;
-- Versions that tie are equal.
CREATE TABLE versions (v version PRIMARY KEY);
INSERT INTO versions VALUES ('1.0'), ('1.2');
INSERT INTO versions VALUES ('0:1.0');
SELECT v FROM versions JOIN (VALUES (version '0:1.0')) t (w) ON v = w;
DROP TABLE versions;
-- The operator classes are complete.
SELECT opcname, amname, amvalidate(o.oid) FROM pg_opclass o JOIN pg_am a ON a.oid = opcmethod
  WHERE opcname IN ('version_ops', 'requirement_ops') ORDER BY 1, 2;
