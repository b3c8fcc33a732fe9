-- versions--0.1.0.sql: functions on versions, the types version, requirement and version_set, those of other schemes,
-- and their operators and indexes. A later version of the extension adds a file versions--0.1.0--NEXT.sql with the
-- changes, which ALTER EXTENSION versions UPDATE runs.
\echo Use "CREATE EXTENSION versions" to load this file. \quit

-- Functions on texts. They return NULL if a text is not a version. Each parses its texts, which costs as much as ten
-- operators on numbers. A requirement or a set that a function or an operator is given beside a version is read once while
-- it stays the same from row to row.

-- Whether a text is a version. It is never NULL for a text.
CREATE FUNCTION is_version(text) RETURNS boolean
  AS 'MODULE_PATHNAME' LANGUAGE C IMMUTABLE STRICT PARALLEL SAFE COST 10;

-- The sort key: bytes that sort by precedence.
CREATE FUNCTION version_key(text) RETURNS bytea
  AS 'MODULE_PATHNAME' LANGUAGE C IMMUTABLE STRICT PARALLEL SAFE COST 10;

-- 'ideal', 'general' or 'complex'
CREATE FUNCTION version_kind(text) RETURNS text
  AS 'MODULE_PATHNAME' LANGUAGE C IMMUTABLE STRICT PARALLEL SAFE COST 10;

-- -1, 0 or 1 if the first is before, equal to or after the second by precedence
CREATE FUNCTION version_compare(text, text) RETURNS integer
  AS 'MODULE_PATHNAME' LANGUAGE C IMMUTABLE STRICT PARALLEL SAFE COST 10;

-- The same with ties broken.
CREATE FUNCTION version_compare_total(text, text) RETURNS integer
  AS 'MODULE_PATHNAME' LANGUAGE C IMMUTABLE STRICT PARALLEL SAFE COST 10;

-- Whether a version matches a requirement, or a comma-separated list of requirements. Fails if that does not parse.
CREATE FUNCTION version_matches(requirement text, version text) RETURNS boolean
  AS 'MODULE_PATHNAME', 'version_matches_text' LANGUAGE C IMMUTABLE STRICT PARALLEL SAFE COST 10;

-- The number at a place, counted from 0; NULL if the version has no number there.
CREATE FUNCTION version_nth(text, place bigint) RETURNS bigint
  AS 'MODULE_PATHNAME' LANGUAGE C IMMUTABLE STRICT PARALLEL SAFE COST 10;

-- The epoch, the number before the colon; NULL if the version has none. At most 9223372036854775807.
CREATE FUNCTION version_epoch(text) RETURNS bigint
  AS 'MODULE_PATHNAME' LANGUAGE C IMMUTABLE STRICT PARALLEL SAFE COST 10;

-- The pre-release of a strict version, the release of a general one, and the metadata of either; NULL if the version
-- has none.
CREATE FUNCTION version_pre_release(text) RETURNS text
  AS 'MODULE_PATHNAME' LANGUAGE C IMMUTABLE STRICT PARALLEL SAFE COST 10;
CREATE FUNCTION version_release(text) RETURNS text
  AS 'MODULE_PATHNAME' LANGUAGE C IMMUTABLE STRICT PARALLEL SAFE COST 10;
CREATE FUNCTION version_metadata(text) RETURNS text
  AS 'MODULE_PATHNAME' LANGUAGE C IMMUTABLE STRICT PARALLEL SAFE COST 10;

-- Whether a version is a strict one with a pre-release.
CREATE FUNCTION version_is_prerelease(text) RETURNS boolean
  AS 'MODULE_PATHNAME' LANGUAGE C IMMUTABLE STRICT PARALLEL SAFE COST 10;

-- How stable a version is, by the words in it: a rule of habit, which changes no order.
CREATE TYPE stability AS ENUM ('dev', 'alpha', 'beta', 'rc', 'stable');
CREATE FUNCTION version_stability(text) RETURNS stability
  AS 'MODULE_PATHNAME' LANGUAGE C IMMUTABLE STRICT PARALLEL SAFE COST 10;

-- Where two versions differ first: 'epoch', 'part 0' and so on, 'tail', 'tie' if they differ but are equal in the
-- order, or 'same'.
CREATE FUNCTION version_difference(text, text) RETURNS text
  AS 'MODULE_PATHNAME' LANGUAGE C IMMUTABLE STRICT PARALLEL SAFE COST 10;

-- The version that comes next at a place, counted from 0, and at the last place of its numbers; NULL if there is none.
CREATE FUNCTION version_next(text, place bigint) RETURNS text
  AS 'MODULE_PATHNAME' LANGUAGE C IMMUTABLE STRICT PARALLEL SAFE COST 10;
CREATE FUNCTION version_next_release(text) RETURNS text
  AS 'MODULE_PATHNAME' LANGUAGE C IMMUTABLE STRICT PARALLEL SAFE COST 10;

-- The pre-release that comes next, of the version's own word or of one such as rc; NULL if there is none.
CREATE FUNCTION version_next_pre(text) RETURNS text
  AS 'MODULE_PATHNAME' LANGUAGE C IMMUTABLE STRICT PARALLEL SAFE COST 10;
CREATE FUNCTION version_next_pre(text, word text) RETURNS text
  AS 'MODULE_PATHNAME' LANGUAGE C IMMUTABLE STRICT PARALLEL SAFE COST 10;

-- Why a version does not match a requirement or a list, in a sentence; NULL if it matches. Fails if the first does not
-- parse.
CREATE FUNCTION version_why_not(requirement text, version text) RETURNS text
  AS 'MODULE_PATHNAME', 'version_why_not_text' LANGUAGE C IMMUTABLE STRICT PARALLEL SAFE COST 10;

-- Whether a text is a version of a scheme, such as 'deb'. A name of no scheme is an error that lists all.
CREATE FUNCTION is_version(text, scheme text) RETURNS boolean
  AS 'MODULE_PATHNAME', 'is_version_in_scheme' LANGUAGE C IMMUTABLE STRICT PARALLEL SAFE COST 10;

-- The key and the order of a scheme. A text that is not a version of the scheme gives NULL.
CREATE FUNCTION version_key(text, scheme text) RETURNS bytea
  AS 'MODULE_PATHNAME', 'version_key_in_scheme' LANGUAGE C IMMUTABLE STRICT PARALLEL SAFE COST 10;
CREATE FUNCTION version_compare(text, text, scheme text) RETURNS integer
  AS 'MODULE_PATHNAME', 'version_compare_in_scheme' LANGUAGE C IMMUTABLE STRICT PARALLEL SAFE COST 10;

-- Whether a version is in a set of versions, as >=1.2, <2 || ^3; NULL if the text is not a version. Fails if the first
-- is not a set. A set of another scheme than mixed has its scheme in front, as deb:>=1.2, or as the third argument.
CREATE FUNCTION version_in_set(set text, version text) RETURNS boolean
  AS 'MODULE_PATHNAME', 'text_in_set_text' LANGUAGE C IMMUTABLE STRICT PARALLEL SAFE COST 10;
CREATE FUNCTION version_in_set(set text, version text, scheme text) RETURNS boolean
  AS 'MODULE_PATHNAME', 'text_in_set_text_in_scheme' LANGUAGE C IMMUTABLE STRICT PARALLEL SAFE COST 10;

-- The version of the library that the extension contains.
CREATE FUNCTION versions_version() RETURNS text
  AS 'MODULE_PATHNAME', 'version_of_library' LANGUAGE C STABLE STRICT PARALLEL SAFE;

-- The type version_bound, for conditions that the planner makes: a bound of a range. Its bytes compare with the keys of
-- versions. Its input takes what its output writes.

CREATE TYPE version_bound;

CREATE FUNCTION version_bound_in(cstring) RETURNS version_bound
  AS 'MODULE_PATHNAME' LANGUAGE C IMMUTABLE STRICT PARALLEL SAFE;
CREATE FUNCTION version_bound_out(version_bound) RETURNS cstring
  AS 'MODULE_PATHNAME' LANGUAGE C IMMUTABLE STRICT PARALLEL SAFE;

CREATE TYPE version_bound (
  INPUT = version_bound_in,
  OUTPUT = version_bound_out,
  LIKE = bytea
);

CREATE FUNCTION version_bound_lt(version_bound, version_bound) RETURNS boolean
  AS 'MODULE_PATHNAME', 'bounds_lt' LANGUAGE C IMMUTABLE STRICT PARALLEL SAFE;
CREATE FUNCTION version_bound_le(version_bound, version_bound) RETURNS boolean
  AS 'MODULE_PATHNAME', 'bounds_le' LANGUAGE C IMMUTABLE STRICT PARALLEL SAFE;
CREATE FUNCTION version_bound_eq(version_bound, version_bound) RETURNS boolean
  AS 'MODULE_PATHNAME', 'bounds_eq' LANGUAGE C IMMUTABLE STRICT PARALLEL SAFE;
CREATE FUNCTION version_bound_ge(version_bound, version_bound) RETURNS boolean
  AS 'MODULE_PATHNAME', 'bounds_ge' LANGUAGE C IMMUTABLE STRICT PARALLEL SAFE;
CREATE FUNCTION version_bound_gt(version_bound, version_bound) RETURNS boolean
  AS 'MODULE_PATHNAME', 'bounds_gt' LANGUAGE C IMMUTABLE STRICT PARALLEL SAFE;
CREATE FUNCTION version_bound_cmp(version_bound, version_bound) RETURNS integer
  AS 'MODULE_PATHNAME', 'bounds_cmp' LANGUAGE C IMMUTABLE STRICT PARALLEL SAFE;
CREATE OPERATOR < (
  LEFTARG = version_bound, RIGHTARG = version_bound, FUNCTION = version_bound_lt, COMMUTATOR = >, NEGATOR = >=,
  RESTRICT = scalarltsel, JOIN = scalarltjoinsel
);
CREATE OPERATOR <= (
  LEFTARG = version_bound, RIGHTARG = version_bound, FUNCTION = version_bound_le, COMMUTATOR = >=, NEGATOR = >,
  RESTRICT = scalarlesel, JOIN = scalarlejoinsel
);
CREATE OPERATOR = (
  LEFTARG = version_bound, RIGHTARG = version_bound, FUNCTION = version_bound_eq, COMMUTATOR = =,
  RESTRICT = eqsel, JOIN = eqjoinsel
);
CREATE OPERATOR >= (
  LEFTARG = version_bound, RIGHTARG = version_bound, FUNCTION = version_bound_ge, COMMUTATOR = <=, NEGATOR = <,
  RESTRICT = scalargesel, JOIN = scalargejoinsel
);
CREATE OPERATOR > (
  LEFTARG = version_bound, RIGHTARG = version_bound, FUNCTION = version_bound_gt, COMMUTATOR = <, NEGATOR = <=,
  RESTRICT = scalargtsel, JOIN = scalargtjoinsel
);

-- The type version_set: a set of versions, as >=1.2, <2 || ^3, with the form that it is read as. A set of another
-- scheme than mixed has its scheme in front, as deb:>=1.2. It prints as it was written, and a computed set, which has
-- no text, as its form: \x and hexadecimal digits, which the input takes too.

CREATE TYPE version_set;

CREATE FUNCTION version_set_in(cstring) RETURNS version_set
  AS 'MODULE_PATHNAME' LANGUAGE C IMMUTABLE STRICT PARALLEL SAFE;
CREATE FUNCTION version_set_out(version_set) RETURNS cstring
  AS 'MODULE_PATHNAME' LANGUAGE C IMMUTABLE STRICT PARALLEL SAFE;
CREATE FUNCTION version_set_recv(internal) RETURNS version_set
  AS 'MODULE_PATHNAME' LANGUAGE C IMMUTABLE STRICT PARALLEL SAFE;
CREATE FUNCTION version_set_send(version_set) RETURNS bytea
  AS 'MODULE_PATHNAME' LANGUAGE C IMMUTABLE STRICT PARALLEL SAFE;

-- The category is its own, in which a requirement is preferred: so a bare literal beside a version is a requirement.
CREATE TYPE version_set (
  INPUT = version_set_in,
  OUTPUT = version_set_out,
  RECEIVE = version_set_recv,
  SEND = version_set_send,
  LIKE = bytea,
  CATEGORY = 'v'
);

-- No cast is implicit, as for versions.
CREATE CAST (text AS version_set) WITH INOUT AS ASSIGNMENT;
CREATE CAST (varchar AS version_set) WITH INOUT AS ASSIGNMENT;
CREATE CAST (version_set AS text) WITH INOUT AS ASSIGNMENT;
CREATE CAST (version_set AS varchar) WITH INOUT AS ASSIGNMENT;

-- A text as a set of a scheme, which may also stand in front of the text. Another one in front is an error.
CREATE FUNCTION version_set(set text, scheme text) RETURNS version_set
  AS 'MODULE_PATHNAME', 'version_set_of_text' LANGUAGE C IMMUTABLE STRICT PARALLEL SAFE COST 10;

-- The name of a set's scheme.
CREATE FUNCTION version_set_scheme(version_set) RETURNS text
  AS 'MODULE_PATHNAME' LANGUAGE C IMMUTABLE STRICT PARALLEL SAFE;

-- Sets are equal if they have the same keys of one scheme, however they are written. Their order is that of the bytes
-- of their forms, for indexes and what sorts: it says nothing of their versions.

CREATE FUNCTION version_set_lt(version_set, version_set) RETURNS boolean
  AS 'MODULE_PATHNAME' LANGUAGE C IMMUTABLE STRICT PARALLEL SAFE;
CREATE FUNCTION version_set_le(version_set, version_set) RETURNS boolean
  AS 'MODULE_PATHNAME' LANGUAGE C IMMUTABLE STRICT PARALLEL SAFE;
CREATE FUNCTION version_set_eq(version_set, version_set) RETURNS boolean
  AS 'MODULE_PATHNAME' LANGUAGE C IMMUTABLE STRICT PARALLEL SAFE;
CREATE FUNCTION version_set_ne(version_set, version_set) RETURNS boolean
  AS 'MODULE_PATHNAME' LANGUAGE C IMMUTABLE STRICT PARALLEL SAFE;
CREATE FUNCTION version_set_ge(version_set, version_set) RETURNS boolean
  AS 'MODULE_PATHNAME' LANGUAGE C IMMUTABLE STRICT PARALLEL SAFE;
CREATE FUNCTION version_set_gt(version_set, version_set) RETURNS boolean
  AS 'MODULE_PATHNAME' LANGUAGE C IMMUTABLE STRICT PARALLEL SAFE;

CREATE OPERATOR < (
  LEFTARG = version_set, RIGHTARG = version_set, FUNCTION = version_set_lt, COMMUTATOR = >, NEGATOR = >=,
  RESTRICT = scalarltsel, JOIN = scalarltjoinsel
);
CREATE OPERATOR <= (
  LEFTARG = version_set, RIGHTARG = version_set, FUNCTION = version_set_le, COMMUTATOR = >=, NEGATOR = >,
  RESTRICT = scalarlesel, JOIN = scalarlejoinsel
);
CREATE OPERATOR = (
  LEFTARG = version_set, RIGHTARG = version_set, FUNCTION = version_set_eq, COMMUTATOR = =, NEGATOR = <>,
  RESTRICT = eqsel, JOIN = eqjoinsel, HASHES, MERGES
);
CREATE OPERATOR <> (
  LEFTARG = version_set, RIGHTARG = version_set, FUNCTION = version_set_ne, COMMUTATOR = <>, NEGATOR = =,
  RESTRICT = neqsel, JOIN = neqjoinsel
);
CREATE OPERATOR >= (
  LEFTARG = version_set, RIGHTARG = version_set, FUNCTION = version_set_ge, COMMUTATOR = <=, NEGATOR = <,
  RESTRICT = scalargesel, JOIN = scalargejoinsel
);
CREATE OPERATOR > (
  LEFTARG = version_set, RIGHTARG = version_set, FUNCTION = version_set_gt, COMMUTATOR = <, NEGATOR = <=,
  RESTRICT = scalargtsel, JOIN = scalargtjoinsel
);

CREATE FUNCTION version_set_cmp(version_set, version_set) RETURNS integer
  AS 'MODULE_PATHNAME' LANGUAGE C IMMUTABLE STRICT PARALLEL SAFE;
CREATE FUNCTION version_set_hash(version_set) RETURNS integer
  AS 'MODULE_PATHNAME' LANGUAGE C IMMUTABLE STRICT PARALLEL SAFE;
CREATE FUNCTION version_set_hash_extended(version_set, bigint) RETURNS bigint
  AS 'MODULE_PATHNAME' LANGUAGE C IMMUTABLE STRICT PARALLEL SAFE;

CREATE OPERATOR CLASS version_set_ops DEFAULT FOR TYPE version_set USING btree AS
  OPERATOR 1 <,
  OPERATOR 2 <=,
  OPERATOR 3 =,
  OPERATOR 4 >=,
  OPERATOR 5 >,
  FUNCTION 1 version_set_cmp(version_set, version_set);

CREATE OPERATOR CLASS version_set_ops DEFAULT FOR TYPE version_set USING hash AS
  OPERATOR 1 =,
  FUNCTION 1 version_set_hash(version_set),
  FUNCTION 2 version_set_hash_extended(version_set, bigint);

-- Two sets of one scheme: whether one has all that the other has, whether they meet, what both have, what one of them
-- has, and what the first alone has; and all that a set has not. Sets of two schemes are an error.

CREATE FUNCTION version_set_contains(version_set, version_set) RETURNS boolean
  AS 'MODULE_PATHNAME' LANGUAGE C IMMUTABLE STRICT PARALLEL SAFE COST 10;
CREATE FUNCTION version_set_contained_by(version_set, version_set) RETURNS boolean
  AS 'MODULE_PATHNAME' LANGUAGE C IMMUTABLE STRICT PARALLEL SAFE COST 10;
CREATE FUNCTION version_set_overlaps(version_set, version_set) RETURNS boolean
  AS 'MODULE_PATHNAME' LANGUAGE C IMMUTABLE STRICT PARALLEL SAFE COST 10;
CREATE FUNCTION version_set_intersect(version_set, version_set) RETURNS version_set
  AS 'MODULE_PATHNAME' LANGUAGE C IMMUTABLE STRICT PARALLEL SAFE COST 10;
CREATE FUNCTION version_set_union(version_set, version_set) RETURNS version_set
  AS 'MODULE_PATHNAME' LANGUAGE C IMMUTABLE STRICT PARALLEL SAFE COST 10;
CREATE FUNCTION version_set_minus(version_set, version_set) RETURNS version_set
  AS 'MODULE_PATHNAME' LANGUAGE C IMMUTABLE STRICT PARALLEL SAFE COST 10;
CREATE FUNCTION version_set_complement(version_set) RETURNS version_set
  AS 'MODULE_PATHNAME' LANGUAGE C IMMUTABLE STRICT PARALLEL SAFE COST 10;

CREATE OPERATOR @> (
  LEFTARG = version_set, RIGHTARG = version_set, FUNCTION = version_set_contains, COMMUTATOR = <@,
  RESTRICT = contsel, JOIN = contjoinsel
);
CREATE OPERATOR <@ (
  LEFTARG = version_set, RIGHTARG = version_set, FUNCTION = version_set_contained_by, COMMUTATOR = @>,
  RESTRICT = contsel, JOIN = contjoinsel
);
CREATE OPERATOR && (
  LEFTARG = version_set, RIGHTARG = version_set, FUNCTION = version_set_overlaps, COMMUTATOR = &&,
  RESTRICT = areasel, JOIN = areajoinsel
);
CREATE OPERATOR * (
  LEFTARG = version_set, RIGHTARG = version_set, FUNCTION = version_set_intersect, COMMUTATOR = *
);
CREATE OPERATOR + (
  LEFTARG = version_set, RIGHTARG = version_set, FUNCTION = version_set_union, COMMUTATOR = +
);
CREATE OPERATOR - (LEFTARG = version_set, RIGHTARG = version_set, FUNCTION = version_set_minus);
-- A prefix !! would take a bare literal from tsquery: !! 'cat' would no longer be unique.
CREATE OPERATOR ~ (RIGHTARG = version_set, FUNCTION = version_set_complement);

-- Whether a text is a version in a set, by the set's scheme; NULL if it is not a version.
CREATE FUNCTION version_in_set(set version_set, version text) RETURNS boolean
  AS 'MODULE_PATHNAME', 'text_in_set' LANGUAGE C IMMUTABLE STRICT PARALLEL SAFE COST 10;

-- The outermost ends of a set, as bytes that compare with version_key(text, scheme) of its scheme: no version of the
-- set has a key below the first, and the keys of all are below the second.
CREATE FUNCTION version_low(set version_set) RETURNS bytea
  AS 'MODULE_PATHNAME', 'version_low_of_set' LANGUAGE C IMMUTABLE STRICT PARALLEL SAFE;
CREATE FUNCTION version_high(set version_set) RETURNS bytea
  AS 'MODULE_PATHNAME', 'version_high_of_set' LANGUAGE C IMMUTABLE STRICT PARALLEL SAFE;

-- The same as bounds, for versions of a scheme. A set of another scheme is an error.
CREATE FUNCTION version_set_low(version_set, scheme text) RETURNS version_bound
  AS 'MODULE_PATHNAME' LANGUAGE C IMMUTABLE STRICT PARALLEL SAFE;
CREATE FUNCTION version_set_high(version_set, scheme text) RETURNS version_bound
  AS 'MODULE_PATHNAME' LANGUAGE C IMMUTABLE STRICT PARALLEL SAFE;

-- For tests of versions that the planner knows: it scans an index on versions between the bounds of a requirement or a
-- set, and estimates the rows by the column's statistics.
CREATE FUNCTION version_matches_support(internal) RETURNS internal
  AS 'MODULE_PATHNAME' LANGUAGE C IMMUTABLE STRICT PARALLEL SAFE;
CREATE FUNCTION version_matches_sel(internal, oid, internal, integer) RETURNS double precision
  AS 'MODULE_PATHNAME' LANGUAGE C STABLE STRICT PARALLEL SAFE;

-- The types of versions: version of the scheme mixed, and one for each other scheme. A value is the text of a version,
-- unchanged. Their names leave those of other extensions free, such as semver. What follows is the same for each.

DO $types$
DECLARE
  type text;
  of_each CONSTANT text := $of_each$

-- Its output and send functions are those of text.

CREATE TYPE @type@;

CREATE FUNCTION @type@_in(cstring) RETURNS @type@
  AS 'MODULE_PATHNAME' LANGUAGE C IMMUTABLE STRICT PARALLEL SAFE;
CREATE FUNCTION @type@_out(@type@) RETURNS cstring
  AS 'textout' LANGUAGE internal IMMUTABLE STRICT PARALLEL SAFE;
CREATE FUNCTION @type@_recv(internal) RETURNS @type@
  AS 'MODULE_PATHNAME' LANGUAGE C IMMUTABLE STRICT PARALLEL SAFE;
CREATE FUNCTION @type@_send(@type@) RETURNS bytea
  AS 'textsend' LANGUAGE internal IMMUTABLE STRICT PARALLEL SAFE;

CREATE TYPE @type@ (
  INPUT = @type@_in,
  OUTPUT = @type@_out,
  RECEIVE = @type@_recv,
  SEND = @type@_send,
  LIKE = text
);

-- No cast is implicit. Otherwise a comparison of a version with a text would compare texts.
CREATE FUNCTION @type@(text) RETURNS @type@
  AS 'MODULE_PATHNAME', '@type@_of_text' LANGUAGE C IMMUTABLE STRICT PARALLEL SAFE COST 10;
CREATE CAST (text AS @type@) WITH FUNCTION @type@(text) AS ASSIGNMENT;
CREATE CAST (varchar AS @type@) WITH FUNCTION @type@(text) AS ASSIGNMENT;
CREATE CAST (@type@ AS text) WITHOUT FUNCTION AS ASSIGNMENT;
CREATE CAST (@type@ AS varchar) WITHOUT FUNCTION AS ASSIGNMENT;

-- A text as a @type@; NULL if it is not one.
CREATE FUNCTION to_@type@(text) RETURNS @type@
  AS 'MODULE_PATHNAME' LANGUAGE C IMMUTABLE STRICT PARALLEL SAFE COST 10;

CREATE FUNCTION version_key(@type@) RETURNS bytea
  AS 'MODULE_PATHNAME', 'key_of_@type@' LANGUAGE C IMMUTABLE STRICT PARALLEL SAFE COST 10;

-- The order of versions. Versions that tie are equal, such as 1.0 and 0:1.0.

CREATE FUNCTION @type@_lt(@type@, @type@) RETURNS boolean
  AS 'MODULE_PATHNAME' LANGUAGE C IMMUTABLE STRICT PARALLEL SAFE COST 10;
CREATE FUNCTION @type@_le(@type@, @type@) RETURNS boolean
  AS 'MODULE_PATHNAME' LANGUAGE C IMMUTABLE STRICT PARALLEL SAFE COST 10;
CREATE FUNCTION @type@_eq(@type@, @type@) RETURNS boolean
  AS 'MODULE_PATHNAME' LANGUAGE C IMMUTABLE STRICT PARALLEL SAFE COST 10;
CREATE FUNCTION @type@_ne(@type@, @type@) RETURNS boolean
  AS 'MODULE_PATHNAME' LANGUAGE C IMMUTABLE STRICT PARALLEL SAFE COST 10;
CREATE FUNCTION @type@_ge(@type@, @type@) RETURNS boolean
  AS 'MODULE_PATHNAME' LANGUAGE C IMMUTABLE STRICT PARALLEL SAFE COST 10;
CREATE FUNCTION @type@_gt(@type@, @type@) RETURNS boolean
  AS 'MODULE_PATHNAME' LANGUAGE C IMMUTABLE STRICT PARALLEL SAFE COST 10;

CREATE OPERATOR < (
  LEFTARG = @type@, RIGHTARG = @type@, FUNCTION = @type@_lt, COMMUTATOR = >, NEGATOR = >=,
  RESTRICT = scalarltsel, JOIN = scalarltjoinsel
);
CREATE OPERATOR <= (
  LEFTARG = @type@, RIGHTARG = @type@, FUNCTION = @type@_le, COMMUTATOR = >=, NEGATOR = >,
  RESTRICT = scalarlesel, JOIN = scalarlejoinsel
);
CREATE OPERATOR = (
  LEFTARG = @type@, RIGHTARG = @type@, FUNCTION = @type@_eq, COMMUTATOR = =, NEGATOR = <>,
  RESTRICT = eqsel, JOIN = eqjoinsel, HASHES, MERGES
);
CREATE OPERATOR <> (
  LEFTARG = @type@, RIGHTARG = @type@, FUNCTION = @type@_ne, COMMUTATOR = <>, NEGATOR = =,
  RESTRICT = neqsel, JOIN = neqjoinsel
);
CREATE OPERATOR >= (
  LEFTARG = @type@, RIGHTARG = @type@, FUNCTION = @type@_ge, COMMUTATOR = <=, NEGATOR = <,
  RESTRICT = scalargesel, JOIN = scalargejoinsel
);
CREATE OPERATOR > (
  LEFTARG = @type@, RIGHTARG = @type@, FUNCTION = @type@_gt, COMMUTATOR = <, NEGATOR = <=,
  RESTRICT = scalargtsel, JOIN = scalargtjoinsel
);

-- Indexes. The b-tree class does not declare that equal versions have equal images, so an index keeps each unchanged.

CREATE FUNCTION @type@_cmp(@type@, @type@) RETURNS integer
  AS 'MODULE_PATHNAME' LANGUAGE C IMMUTABLE STRICT PARALLEL SAFE COST 10;
CREATE FUNCTION @type@_sortsupport(internal) RETURNS void
  AS 'MODULE_PATHNAME' LANGUAGE C IMMUTABLE STRICT PARALLEL SAFE;
CREATE FUNCTION @type@_hash(@type@) RETURNS integer
  AS 'MODULE_PATHNAME' LANGUAGE C IMMUTABLE STRICT PARALLEL SAFE COST 10;
CREATE FUNCTION @type@_hash_extended(@type@, bigint) RETURNS bigint
  AS 'MODULE_PATHNAME' LANGUAGE C IMMUTABLE STRICT PARALLEL SAFE COST 10;

CREATE OPERATOR CLASS @type@_ops DEFAULT FOR TYPE @type@ USING btree AS
  OPERATOR 1 <,
  OPERATOR 2 <=,
  OPERATOR 3 =,
  OPERATOR 4 >=,
  OPERATOR 5 >,
  FUNCTION 1 @type@_cmp(@type@, @type@),
  FUNCTION 2 @type@_sortsupport(internal);

CREATE OPERATOR CLASS @type@_ops DEFAULT FOR TYPE @type@ USING hash AS
  OPERATOR 1 =,
  FUNCTION 1 @type@_hash(@type@),
  FUNCTION 2 @type@_hash_extended(@type@, bigint);

-- The greatest and the least @type@, from an index if there is one.

CREATE FUNCTION @type@_larger(@type@, @type@) RETURNS @type@
  AS 'MODULE_PATHNAME' LANGUAGE C IMMUTABLE STRICT PARALLEL SAFE COST 10;
CREATE FUNCTION @type@_smaller(@type@, @type@) RETURNS @type@
  AS 'MODULE_PATHNAME' LANGUAGE C IMMUTABLE STRICT PARALLEL SAFE COST 10;
CREATE AGGREGATE max(@type@) (
  SFUNC = @type@_larger, STYPE = @type@, COMBINEFUNC = @type@_larger, SORTOP = >, PARALLEL = SAFE
);
CREATE AGGREGATE min(@type@) (
  SFUNC = @type@_smaller, STYPE = @type@, COMBINEFUNC = @type@_smaller, SORTOP = <, PARALLEL = SAFE
);

-- Versions and bounds are in one order, that of keys, so the class of versions for b-trees has all their comparisons.

CREATE FUNCTION @type@_bound_lt(@type@, version_bound) RETURNS boolean
  AS 'MODULE_PATHNAME' LANGUAGE C IMMUTABLE STRICT PARALLEL SAFE COST 10;
CREATE FUNCTION @type@_bound_le(@type@, version_bound) RETURNS boolean
  AS 'MODULE_PATHNAME' LANGUAGE C IMMUTABLE STRICT PARALLEL SAFE COST 10;
CREATE FUNCTION @type@_bound_eq(@type@, version_bound) RETURNS boolean
  AS 'MODULE_PATHNAME' LANGUAGE C IMMUTABLE STRICT PARALLEL SAFE COST 10;
CREATE FUNCTION @type@_bound_ge(@type@, version_bound) RETURNS boolean
  AS 'MODULE_PATHNAME' LANGUAGE C IMMUTABLE STRICT PARALLEL SAFE COST 10;
CREATE FUNCTION @type@_bound_gt(@type@, version_bound) RETURNS boolean
  AS 'MODULE_PATHNAME' LANGUAGE C IMMUTABLE STRICT PARALLEL SAFE COST 10;
CREATE FUNCTION @type@_bound_cmp(@type@, version_bound) RETURNS integer
  AS 'MODULE_PATHNAME' LANGUAGE C IMMUTABLE STRICT PARALLEL SAFE COST 10;
CREATE OPERATOR < (
  LEFTARG = @type@, RIGHTARG = version_bound, FUNCTION = @type@_bound_lt, COMMUTATOR = >, NEGATOR = >=,
  RESTRICT = scalarltsel, JOIN = scalarltjoinsel
);
CREATE OPERATOR <= (
  LEFTARG = @type@, RIGHTARG = version_bound, FUNCTION = @type@_bound_le, COMMUTATOR = >=, NEGATOR = >,
  RESTRICT = scalarlesel, JOIN = scalarlejoinsel
);
CREATE OPERATOR = (
  LEFTARG = @type@, RIGHTARG = version_bound, FUNCTION = @type@_bound_eq, COMMUTATOR = =,
  RESTRICT = eqsel, JOIN = eqjoinsel
);
CREATE OPERATOR >= (
  LEFTARG = @type@, RIGHTARG = version_bound, FUNCTION = @type@_bound_ge, COMMUTATOR = <=, NEGATOR = <,
  RESTRICT = scalargesel, JOIN = scalargejoinsel
);
CREATE OPERATOR > (
  LEFTARG = @type@, RIGHTARG = version_bound, FUNCTION = @type@_bound_gt, COMMUTATOR = <, NEGATOR = <=,
  RESTRICT = scalargtsel, JOIN = scalargtjoinsel
);

CREATE FUNCTION bound_@type@_lt(version_bound, @type@) RETURNS boolean
  AS 'MODULE_PATHNAME' LANGUAGE C IMMUTABLE STRICT PARALLEL SAFE COST 10;
CREATE FUNCTION bound_@type@_le(version_bound, @type@) RETURNS boolean
  AS 'MODULE_PATHNAME' LANGUAGE C IMMUTABLE STRICT PARALLEL SAFE COST 10;
CREATE FUNCTION bound_@type@_eq(version_bound, @type@) RETURNS boolean
  AS 'MODULE_PATHNAME' LANGUAGE C IMMUTABLE STRICT PARALLEL SAFE COST 10;
CREATE FUNCTION bound_@type@_ge(version_bound, @type@) RETURNS boolean
  AS 'MODULE_PATHNAME' LANGUAGE C IMMUTABLE STRICT PARALLEL SAFE COST 10;
CREATE FUNCTION bound_@type@_gt(version_bound, @type@) RETURNS boolean
  AS 'MODULE_PATHNAME' LANGUAGE C IMMUTABLE STRICT PARALLEL SAFE COST 10;
CREATE FUNCTION bound_@type@_cmp(version_bound, @type@) RETURNS integer
  AS 'MODULE_PATHNAME' LANGUAGE C IMMUTABLE STRICT PARALLEL SAFE COST 10;
CREATE OPERATOR < (
  LEFTARG = version_bound, RIGHTARG = @type@, FUNCTION = bound_@type@_lt, COMMUTATOR = >, NEGATOR = >=,
  RESTRICT = scalarltsel, JOIN = scalarltjoinsel
);
CREATE OPERATOR <= (
  LEFTARG = version_bound, RIGHTARG = @type@, FUNCTION = bound_@type@_le, COMMUTATOR = >=, NEGATOR = >,
  RESTRICT = scalarlesel, JOIN = scalarlejoinsel
);
CREATE OPERATOR = (
  LEFTARG = version_bound, RIGHTARG = @type@, FUNCTION = bound_@type@_eq, COMMUTATOR = =,
  RESTRICT = eqsel, JOIN = eqjoinsel
);
CREATE OPERATOR >= (
  LEFTARG = version_bound, RIGHTARG = @type@, FUNCTION = bound_@type@_ge, COMMUTATOR = <=, NEGATOR = <,
  RESTRICT = scalargesel, JOIN = scalargejoinsel
);
CREATE OPERATOR > (
  LEFTARG = version_bound, RIGHTARG = @type@, FUNCTION = bound_@type@_gt, COMMUTATOR = <, NEGATOR = <=,
  RESTRICT = scalargtsel, JOIN = scalargtjoinsel
);

ALTER OPERATOR FAMILY @type@_ops USING btree ADD
  OPERATOR 1 < (@type@, version_bound),
  OPERATOR 2 <= (@type@, version_bound),
  OPERATOR 3 = (@type@, version_bound),
  OPERATOR 4 >= (@type@, version_bound),
  OPERATOR 5 > (@type@, version_bound),
  FUNCTION 1 (@type@, version_bound) @type@_bound_cmp(@type@, version_bound),
  OPERATOR 1 < (version_bound, @type@),
  OPERATOR 2 <= (version_bound, @type@),
  OPERATOR 3 = (version_bound, @type@),
  OPERATOR 4 >= (version_bound, @type@),
  OPERATOR 5 > (version_bound, @type@),
  FUNCTION 1 (version_bound, @type@) bound_@type@_cmp(version_bound, @type@),
  OPERATOR 1 < (version_bound, version_bound),
  OPERATOR 2 <= (version_bound, version_bound),
  OPERATOR 3 = (version_bound, version_bound),
  OPERATOR 4 >= (version_bound, version_bound),
  OPERATOR 5 > (version_bound, version_bound),
  FUNCTION 1 (version_bound, version_bound) version_bound_cmp(version_bound, version_bound);

-- Whether a version is in a set. A set of another scheme is an error.

CREATE FUNCTION version_in_set(set version_set, version @type@) RETURNS boolean
  AS 'MODULE_PATHNAME', '@type@_in_set' LANGUAGE C IMMUTABLE STRICT PARALLEL SAFE COST 10
  SUPPORT version_matches_support;
CREATE FUNCTION version_in_set(set text, version @type@) RETURNS boolean
  AS 'MODULE_PATHNAME', '@type@_in_set_text' LANGUAGE C IMMUTABLE STRICT PARALLEL SAFE COST 10
  SUPPORT version_matches_support;
CREATE FUNCTION version_contained_by(version @type@, set version_set) RETURNS boolean
  AS 'MODULE_PATHNAME', '@type@_contained_by' LANGUAGE C IMMUTABLE STRICT PARALLEL SAFE COST 10
  SUPPORT version_matches_support;

CREATE OPERATOR <@ (
  LEFTARG = @type@, RIGHTARG = version_set, FUNCTION = version_contained_by, COMMUTATOR = @>,
  RESTRICT = version_matches_sel, JOIN = matchingjoinsel
);
CREATE OPERATOR @> (
  LEFTARG = version_set, RIGHTARG = @type@, FUNCTION = version_in_set, COMMUTATOR = <@,
  RESTRICT = version_matches_sel, JOIN = matchingjoinsel
);

$of_each$;
  -- Beside a version of the scheme mixed a bare literal is a requirement; beside another it is a text, and so a set of
  -- that scheme.
  of_others CONSTANT text := $of_others$

-- -1, 0 or 1 if the first is before, equal to or after the second.
CREATE FUNCTION version_compare(@type@, @type@) RETURNS integer
  AS 'MODULE_PATHNAME', '@type@_cmp' LANGUAGE C IMMUTABLE STRICT PARALLEL SAFE COST 10;

CREATE FUNCTION version_contained_by(version @type@, set text) RETURNS boolean
  AS 'MODULE_PATHNAME', '@type@_contained_by_text' LANGUAGE C IMMUTABLE STRICT PARALLEL SAFE COST 10
  SUPPORT version_matches_support;

CREATE OPERATOR <@ (
  LEFTARG = @type@, RIGHTARG = text, FUNCTION = version_contained_by, COMMUTATOR = @>,
  RESTRICT = version_matches_sel, JOIN = matchingjoinsel
);
CREATE OPERATOR @> (
  LEFTARG = text, RIGHTARG = @type@, FUNCTION = version_in_set, COMMUTATOR = <@,
  RESTRICT = version_matches_sel, JOIN = matchingjoinsel
);

$of_others$;
BEGIN
  FOREACH type IN ARRAY ARRAY['version', 'deb_version', 'rpm_version', 'pypi_version', 'semver_version', 'gem_version']
  LOOP
    EXECUTE replace(of_each, '@type@', type);
    IF type <> 'version' THEN
      EXECUTE replace(of_others, '@type@', type);
    END IF;
  END LOOP;
END
$types$;

-- The version in a tag, such as v1.2.3, also after a prefix; NULL if it has none.
CREATE FUNCTION version_in(tag text) RETURNS version
  AS 'MODULE_PATHNAME', 'version_in_tag' LANGUAGE C IMMUTABLE STRICT PARALLEL SAFE COST 10;
CREATE FUNCTION version_in(tag text, prefix text) RETURNS version
  AS 'MODULE_PATHNAME', 'version_after_prefix' LANGUAGE C IMMUTABLE STRICT PARALLEL SAFE COST 10;

-- The functions on texts, for versions.

CREATE FUNCTION version_kind(version) RETURNS text
  AS 'MODULE_PATHNAME', 'version_kind_of_version' LANGUAGE C IMMUTABLE STRICT PARALLEL SAFE COST 10;
CREATE FUNCTION version_compare(version, version) RETURNS integer
  AS 'MODULE_PATHNAME', 'version_compare_of_version' LANGUAGE C IMMUTABLE STRICT PARALLEL SAFE COST 10;
CREATE FUNCTION version_compare_total(version, version) RETURNS integer
  AS 'MODULE_PATHNAME', 'version_compare_total_of_version' LANGUAGE C IMMUTABLE STRICT PARALLEL SAFE COST 10;
CREATE FUNCTION version_nth(version, place bigint) RETURNS bigint
  AS 'MODULE_PATHNAME', 'version_nth_of_version' LANGUAGE C IMMUTABLE STRICT PARALLEL SAFE COST 10;
CREATE FUNCTION version_epoch(version) RETURNS bigint
  AS 'MODULE_PATHNAME', 'version_epoch_of_version' LANGUAGE C IMMUTABLE STRICT PARALLEL SAFE COST 10;
CREATE FUNCTION version_pre_release(version) RETURNS text
  AS 'MODULE_PATHNAME', 'version_pre_release_of_version' LANGUAGE C IMMUTABLE STRICT PARALLEL SAFE COST 10;
CREATE FUNCTION version_release(version) RETURNS text
  AS 'MODULE_PATHNAME', 'version_release_of_version' LANGUAGE C IMMUTABLE STRICT PARALLEL SAFE COST 10;
CREATE FUNCTION version_metadata(version) RETURNS text
  AS 'MODULE_PATHNAME', 'version_metadata_of_version' LANGUAGE C IMMUTABLE STRICT PARALLEL SAFE COST 10;
CREATE FUNCTION version_is_prerelease(version) RETURNS boolean
  AS 'MODULE_PATHNAME', 'version_is_prerelease_of_version' LANGUAGE C IMMUTABLE STRICT PARALLEL SAFE COST 10;

CREATE FUNCTION version_stability(version) RETURNS stability
  AS 'MODULE_PATHNAME', 'version_stability_of_version' LANGUAGE C IMMUTABLE STRICT PARALLEL SAFE COST 10;
CREATE FUNCTION version_difference(version, version) RETURNS text
  AS 'MODULE_PATHNAME', 'version_difference_of_version' LANGUAGE C IMMUTABLE STRICT PARALLEL SAFE COST 10;
CREATE FUNCTION version_next(version, place bigint) RETURNS version
  AS 'MODULE_PATHNAME', 'version_next_of_version' LANGUAGE C IMMUTABLE STRICT PARALLEL SAFE COST 10;
CREATE FUNCTION version_next_release(version) RETURNS version
  AS 'MODULE_PATHNAME', 'version_next_release_of_version' LANGUAGE C IMMUTABLE STRICT PARALLEL SAFE COST 10;
CREATE FUNCTION version_next_pre(version) RETURNS version
  AS 'MODULE_PATHNAME', 'version_next_pre_of_version' LANGUAGE C IMMUTABLE STRICT PARALLEL SAFE COST 10;
CREATE FUNCTION version_next_pre(version, word text) RETURNS version
  AS 'MODULE_PATHNAME', 'version_next_pre_of_version' LANGUAGE C IMMUTABLE STRICT PARALLEL SAFE COST 10;

-- The type requirement: a list of requirements as written, and the range of keys that it asks for.

CREATE TYPE requirement;

CREATE FUNCTION requirement_in(cstring) RETURNS requirement
  AS 'MODULE_PATHNAME' LANGUAGE C IMMUTABLE STRICT PARALLEL SAFE;
CREATE FUNCTION requirement_out(requirement) RETURNS cstring
  AS 'MODULE_PATHNAME' LANGUAGE C IMMUTABLE STRICT PARALLEL SAFE;
CREATE FUNCTION requirement_recv(internal) RETURNS requirement
  AS 'MODULE_PATHNAME' LANGUAGE C IMMUTABLE STRICT PARALLEL SAFE;
CREATE FUNCTION requirement_send(requirement) RETURNS bytea
  AS 'MODULE_PATHNAME' LANGUAGE C IMMUTABLE STRICT PARALLEL SAFE;

CREATE TYPE requirement (
  INPUT = requirement_in,
  OUTPUT = requirement_out,
  RECEIVE = requirement_recv,
  SEND = requirement_send,
  LIKE = bytea,
  CATEGORY = 'v',
  PREFERRED = true
);

-- No cast is implicit, as for versions.
CREATE CAST (text AS requirement) WITH INOUT AS ASSIGNMENT;
CREATE CAST (varchar AS requirement) WITH INOUT AS ASSIGNMENT;
CREATE CAST (requirement AS text) WITH INOUT AS ASSIGNMENT;
CREATE CAST (requirement AS varchar) WITH INOUT AS ASSIGNMENT;

-- The order of requirements: that of the bytes of their texts. Requirements are equal if their texts are.

CREATE FUNCTION requirement_lt(requirement, requirement) RETURNS boolean
  AS 'MODULE_PATHNAME' LANGUAGE C IMMUTABLE STRICT PARALLEL SAFE;
CREATE FUNCTION requirement_le(requirement, requirement) RETURNS boolean
  AS 'MODULE_PATHNAME' LANGUAGE C IMMUTABLE STRICT PARALLEL SAFE;
CREATE FUNCTION requirement_eq(requirement, requirement) RETURNS boolean
  AS 'MODULE_PATHNAME' LANGUAGE C IMMUTABLE STRICT PARALLEL SAFE;
CREATE FUNCTION requirement_ne(requirement, requirement) RETURNS boolean
  AS 'MODULE_PATHNAME' LANGUAGE C IMMUTABLE STRICT PARALLEL SAFE;
CREATE FUNCTION requirement_ge(requirement, requirement) RETURNS boolean
  AS 'MODULE_PATHNAME' LANGUAGE C IMMUTABLE STRICT PARALLEL SAFE;
CREATE FUNCTION requirement_gt(requirement, requirement) RETURNS boolean
  AS 'MODULE_PATHNAME' LANGUAGE C IMMUTABLE STRICT PARALLEL SAFE;

CREATE OPERATOR < (
  LEFTARG = requirement, RIGHTARG = requirement, FUNCTION = requirement_lt, COMMUTATOR = >, NEGATOR = >=,
  RESTRICT = scalarltsel, JOIN = scalarltjoinsel
);
CREATE OPERATOR <= (
  LEFTARG = requirement, RIGHTARG = requirement, FUNCTION = requirement_le, COMMUTATOR = >=, NEGATOR = >,
  RESTRICT = scalarlesel, JOIN = scalarlejoinsel
);
CREATE OPERATOR = (
  LEFTARG = requirement, RIGHTARG = requirement, FUNCTION = requirement_eq, COMMUTATOR = =, NEGATOR = <>,
  RESTRICT = eqsel, JOIN = eqjoinsel, HASHES, MERGES
);
CREATE OPERATOR <> (
  LEFTARG = requirement, RIGHTARG = requirement, FUNCTION = requirement_ne, COMMUTATOR = <>, NEGATOR = =,
  RESTRICT = neqsel, JOIN = neqjoinsel
);
CREATE OPERATOR >= (
  LEFTARG = requirement, RIGHTARG = requirement, FUNCTION = requirement_ge, COMMUTATOR = <=, NEGATOR = <,
  RESTRICT = scalargesel, JOIN = scalargejoinsel
);
CREATE OPERATOR > (
  LEFTARG = requirement, RIGHTARG = requirement, FUNCTION = requirement_gt, COMMUTATOR = <, NEGATOR = <=,
  RESTRICT = scalargtsel, JOIN = scalargtjoinsel
);

CREATE FUNCTION requirement_cmp(requirement, requirement) RETURNS integer
  AS 'MODULE_PATHNAME' LANGUAGE C IMMUTABLE STRICT PARALLEL SAFE;
CREATE FUNCTION requirement_hash(requirement) RETURNS integer
  AS 'MODULE_PATHNAME' LANGUAGE C IMMUTABLE STRICT PARALLEL SAFE;
CREATE FUNCTION requirement_hash_extended(requirement, bigint) RETURNS bigint
  AS 'MODULE_PATHNAME' LANGUAGE C IMMUTABLE STRICT PARALLEL SAFE;

CREATE OPERATOR CLASS requirement_ops DEFAULT FOR TYPE requirement USING btree AS
  OPERATOR 1 <,
  OPERATOR 2 <=,
  OPERATOR 3 =,
  OPERATOR 4 >=,
  OPERATOR 5 >,
  FUNCTION 1 requirement_cmp(requirement, requirement);

CREATE OPERATOR CLASS requirement_ops DEFAULT FOR TYPE requirement USING hash AS
  OPERATOR 1 =,
  FUNCTION 1 requirement_hash(requirement),
  FUNCTION 2 requirement_hash_extended(requirement, bigint);

-- Whether a version matches.

CREATE FUNCTION version_matches(requirement requirement, version version) RETURNS boolean
  AS 'MODULE_PATHNAME' LANGUAGE C IMMUTABLE STRICT PARALLEL SAFE COST 10 SUPPORT version_matches_support;
CREATE FUNCTION version_matches(requirement text, version version) RETURNS boolean
  AS 'MODULE_PATHNAME', 'version_matches_cast' LANGUAGE C IMMUTABLE STRICT PARALLEL SAFE COST 10
  SUPPORT version_matches_support;
CREATE FUNCTION version_matched_by(version version, requirement requirement) RETURNS boolean
  AS 'MODULE_PATHNAME' LANGUAGE C IMMUTABLE STRICT PARALLEL SAFE COST 10 SUPPORT version_matches_support;

-- Why a version does not match, in a sentence; NULL if it matches.
CREATE FUNCTION version_why_not(requirement requirement, version version) RETURNS text
  AS 'MODULE_PATHNAME' LANGUAGE C IMMUTABLE STRICT PARALLEL SAFE COST 10;

CREATE OPERATOR <@ (
  LEFTARG = version, RIGHTARG = requirement, FUNCTION = version_matched_by, COMMUTATOR = @>,
  RESTRICT = version_matches_sel, JOIN = matchingjoinsel
);
CREATE OPERATOR @> (
  LEFTARG = requirement, RIGHTARG = version, FUNCTION = version_matches, COMMUTATOR = <@,
  RESTRICT = version_matches_sel, JOIN = matchingjoinsel
);

-- The bounds of a requirement, as bytes that compare with version_key(text): no version that matches has a key below
-- the first, and the keys of all are below the second. A text that is not a requirement is an error.
CREATE FUNCTION version_low(requirement text) RETURNS bytea
  AS 'MODULE_PATHNAME', 'version_low_text' LANGUAGE C IMMUTABLE STRICT PARALLEL SAFE COST 10;
CREATE FUNCTION version_high(requirement text) RETURNS bytea
  AS 'MODULE_PATHNAME', 'version_high_text' LANGUAGE C IMMUTABLE STRICT PARALLEL SAFE COST 10;
CREATE FUNCTION version_low(requirement requirement) RETURNS bytea
  AS 'MODULE_PATHNAME' LANGUAGE C IMMUTABLE STRICT PARALLEL SAFE;
CREATE FUNCTION version_high(requirement requirement) RETURNS bytea
  AS 'MODULE_PATHNAME' LANGUAGE C IMMUTABLE STRICT PARALLEL SAFE;

-- The bounds of a requirement: no version that matches is below the first, and all are below the second.
CREATE FUNCTION requirement_low(requirement) RETURNS version_bound
  AS 'MODULE_PATHNAME' LANGUAGE C IMMUTABLE STRICT PARALLEL SAFE;
CREATE FUNCTION requirement_high(requirement) RETURNS version_bound
  AS 'MODULE_PATHNAME' LANGUAGE C IMMUTABLE STRICT PARALLEL SAFE;
