-- The type: input, output and casts.
SELECT requirement '>=1.1.1,<2.0.0', '*'::requirement, '^1.2'::text::requirement::varchar(3);
SELECT requirement '1.2.3';
SELECT requirement '>= 1.0';
SELECT requirement '=1.0 || =2.0';
SELECT r::requirement FROM (VALUES ('=1.2'), ('>=1.0, <2.0')) t (r);
SELECT requirement '';
SELECT bool_and(r::requirement::text = r) FROM unnest(ARRAY['=1.2.3.4', '>=1.2.3rc1', '*', '>=1.1.1,<2.0.0']) r;
CREATE TEMP TABLE inputs (r text);
INSERT INTO inputs VALUES ('1.2.3'), ('='), ('=>1.0'), ('!=1.0'), ('>= 1.0'), ('*1'), ('^1.*'), (','), (',*'),
  ('=1.0.0,'), ('=1.0.0,,*'), ('>=1.0, <2.0'), ('=1.0 || =2.0');
DO $$
DECLARE
  list text;
BEGIN
  FOR list IN SELECT r FROM inputs LOOP
    BEGIN
      RAISE EXCEPTION 'it is a requirement: %', list::requirement;
    EXCEPTION WHEN invalid_text_representation THEN NULL;
    END;
  END LOOP;
END $$;
-- Requirements are equal if their texts are.
SELECT r, count(*) FROM (VALUES (requirement '^1.2'), ('^1.2'), ('^1.2.0'), (NULL)) t (r) GROUP BY r ORDER BY r::text;
SELECT requirement '^1.2' = '^1.2', requirement '^1.2' <> '^1.2', requirement '=1.0' = '=0:1.0';
-- Their order is that of their texts' bytes.
SELECT r FROM unnest(ARRAY['^1.2', '>=1.9', '*', '>=1.10', NULL, '^1.2.0']::requirement[]) r ORDER BY r;
CREATE TEMP TABLE kept (r requirement PRIMARY KEY);
INSERT INTO kept VALUES ('^1.2'), ('^1.2.0');
INSERT INTO kept VALUES ('^1.2');
-- The ranges of docs/REQUIREMENTS.md, "As a range of keys".
SELECT r, requirement_low(r), requirement_high(r) FROM unnest(ARRAY['>=1.2.3,<2.0.0', '>1.0', '=1.0', '^1.2.3',
  '^0.0.3', '~1.2', '^1:1.2rc1', '^1.2.3,<1.9.0', '*', '~1_2', '<=1.0']::requirement[]) r;
SELECT version_bound '00', version_bound 'infinity';
SELECT version_bound '0';
-- The tables of docs/REQUIREMENTS.md: what each requirement matches and does not match. No row is wrong.
CREATE TEMP TABLE wanted (r requirement, yes version[], no version[]);
INSERT INTO wanted VALUES
  ('>=1.2.3,<2.0.0', '{1.2.3,1.5,1.10.0,2.0.0-rc.1}', '{1.0.0,2.0.0}'),
  ('=1.0', '{1.0}', '{0:1.0,1.0+x,1.0.0}'),
  ('=1.0.0', '{1.0.0+x}', '{1.0}'),
  ('>=1.0', '{1.0,0:1.0,1.0.0}', '{1.0rc1}'),
  ('>=1.2.3rc1', '{1.2.3rc1,1.2.3}', '{1.2.3alpha}'),
  ('<2.0.0', '{2.0.0-rc.1,2}', '{2.0.0,0:2.0.0}'),
  ('^1.1.1,<1.5.0', '{1.2.0,1.5.0-rc.1}', '{1.5.0}'),
  ('*', '{1.2.3,1_2}', '{}'),
  ('^1.2', '{1.2,1.5}', '{1.2.5,1_2}'),
  ('^1.2.3', '{1.4.0,1.2.3-a,1.2.3,1.10.0}', '{1.5,1.2.2,2.0.0}'),
  ('~1.1.1', '{1.1.1,1.1.3}', '{1.1.0,1.2.0,2.0.0,1.0.0}'),
  ('^1.1.1', '{1.1.3,1.2.0}', '{2.0.0,1.0.0}'),
  ('~0.3.1', '{0.3.5}', '{0.4.0}'),
  ('^0.3.1', '{0.3.5}', '{0.4.0}'),
  ('~0.0.3', '{0.0.4}', '{0.1.3}'),
  ('^0.0.3', '{0.0.3}', '{0.0.4}'),
  ('~1.2', '{1.2,1.5,0:1.2}', '{5.0,1.2rc1,1.2.0,1.2.x,1:1.5}'),
  ('~1', '{1,5}', '{0}'),
  ('~1a.2', '{01a.2}', '{1.2}'),
  ('~1:1.2', '{1:1.5}', '{1.5}'),
  ('^1.2', '{1.3,1.2.0.1}', '{1.0,2.2}'),
  ('^1.2rc1', '{1.2}', '{1.1}'),
  ('^0.3', '{0.3}', '{0.4,5.9}'),
  ('^0.0', '{0.0.5.1}', '{0.1}'),
  ('^1', '{1,1.5}', '{5}'),
  ('^1.2.3.4', '{1.2.3.4}', '{1.2}'),
  ('^1_2', '{}', '{1_2,1.2}'),
  ('~1_2', '{}', '{1_2,1.2}');
SELECT r, v FROM wanted, unnest(yes) v WHERE NOT v <@ r OR NOT r @> v OR NOT version_matches(r, v);
SELECT r, v FROM wanted, unnest(no) v WHERE v <@ r OR r @> v OR version_matches(r, v);
SELECT count(*) AS wrong FROM wanted, unnest(yes || no) v
  WHERE (v <@ r) <> version_matches(r::text, v::text);
SELECT version '1' <@ NULL, NULL @> version '1', NULL::version <@ '*';
-- There is no operator ~: on texts it is PostgreSQL's own, for regular expressions.
SELECT version '1.2' ~ '^1.2';
-- A copy in binary is one of the lists.
SELECT requirement_send(requirement '^1.2');
SELECT pg_column_size(requirement '^1.2.3') < 64 AS is_short;
