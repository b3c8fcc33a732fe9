-- Functions on texts. The values come from docs/ORDER.md, docs/GRAMMAR.md and docs/C.md.
SELECT t, is_version(t), version_kind(t), version_key(t), to_version(t) IS NOT NULL AS to_version,
  version_epoch(t), version_is_prerelease(t), version_nth(t, 1)
  FROM unnest(ARRAY['1.2.3', '1.2.3-rc.1', '1.0.0+x', '1.2', '1:2.0rc1-3', '0:1.0', '1.0_2', '20.0026.1_0-2+0.93',
    '1..2', 'x y', '', ' 1', '1.2.3-é', NULL]) t;
-- The epoch and the texts of a version.
SELECT t, version_epoch(t), version_pre_release(t), version_release(t), version_metadata(t)
  FROM unnest(ARRAY['1.2.3-rc.1+x86', '1.2.3+a-b', '1:2.0rc1-3', '1-1+1', '0:1.0', '01:1.0', '1:2:3', '8:2007f~dfsg-7',
    '4294967296:1-1', '9223372036854775808:1', '1.0_1:2', 'x y', NULL]) t;
SELECT version_compare('1.2.git', '1.2'), version_compare('1.0', '0:1.0'), version_compare('1:0.1', '9.9'),
  version_compare('1', 'x y');
SELECT version_compare_total('1.0', '0:1.0'), version_compare_total('1.0.0+a', '1.0.0+b');
SELECT version_matches('^1.1.1', '1.2.0'), version_matches('~1.1.1', '1.2.0'), version_matches('*', 'x y');
SELECT version_matches('>= 1.0', '1.2.0');
-- The same functions on versions.
SELECT v, version_kind(v), version_epoch(v), version_pre_release(v), version_release(v), version_metadata(v),
  version_is_prerelease(v), version_nth(v, 1)
  FROM unnest(ARRAY['1.2.3-rc.1', '1:2.0rc1-3+x', '20081126:1.03-4']::version[]) v;
-- A column of texts. The greatest version is not the first row in descending order of keys: NULLs come before it.
CREATE TABLE texts (t text);
INSERT INTO texts VALUES ('1.9'), ('1.10'), ('x y'), ('1.10rc1'), (NULL);
SELECT t FROM texts ORDER BY version_key(t) DESC LIMIT 1;
SELECT t FROM texts ORDER BY version_key(t) DESC NULLS LAST LIMIT 1;
SELECT max(to_version(t)) FROM texts;
SELECT t FROM texts WHERE to_version(t) <@ '>=1.9,<2' ORDER BY to_version(t);
-- Nothing compares a text with a requirement.
SELECT t FROM texts WHERE t <@ '>=1.9';
SELECT t FROM texts WHERE t <@ requirement '>=1.9';
SELECT t FROM texts WHERE t::version <@ '>=1.9';
SELECT version '1.9' <@ t FROM texts;
SELECT version '1.9' <@ t::requirement FROM texts;
DROP TABLE texts;
