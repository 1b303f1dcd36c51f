-- The extension yengatomu: CREATE EXTENSION reads this file.
\echo Use "CREATE EXTENSION yengatomu" to load this file. \quit

DO $$
BEGIN
    IF getdatabaseencoding() <> 'UTF8' THEN
        RAISE EXCEPTION 'yengatomu splits texts of databases in UTF8 only'
            USING ERRCODE = 'feature_not_supported', DETAIL = 'The encoding of this database is ' || getdatabaseencoding() || '.';
    END IF;
END
$$;

CREATE FUNCTION yengatomu_graphemes(text) RETURNS SETOF text AS 'MODULE_PATHNAME', 'yengatomu_split_graphemes'
    LANGUAGE C IMMUTABLE STRICT PARALLEL SAFE;
COMMENT ON FUNCTION yengatomu_graphemes(text) IS 'the grapheme clusters of a text';

CREATE FUNCTION yengatomu_words(text) RETURNS SETOF text AS 'MODULE_PATHNAME', 'yengatomu_split_words'
    LANGUAGE C IMMUTABLE STRICT PARALLEL SAFE;
COMMENT ON FUNCTION yengatomu_words(text) IS 'the words and numbers of a text';

CREATE FUNCTION yengatomu_sentences(text) RETURNS SETOF text AS 'MODULE_PATHNAME', 'yengatomu_split_sentences'
    LANGUAGE C IMMUTABLE STRICT PARALLEL SAFE;
COMMENT ON FUNCTION yengatomu_sentences(text) IS 'the sentences of a text, each with the spaces behind it';

CREATE FUNCTION yengatomu_wrap(text, columns int) RETURNS SETOF text AS 'MODULE_PATHNAME', 'yengatomu_split_lines'
    LANGUAGE C IMMUTABLE STRICT PARALLEL SAFE;
COMMENT ON FUNCTION yengatomu_wrap(text, int) IS 'the lines that a text is wrapped to, without white space at their ends';

CREATE FUNCTION yengatomu_parser_start(internal, int) RETURNS internal AS 'MODULE_PATHNAME' LANGUAGE C STRICT PARALLEL SAFE;
CREATE FUNCTION yengatomu_parser_token(internal, internal, internal) RETURNS internal AS 'MODULE_PATHNAME' LANGUAGE C STRICT PARALLEL SAFE;
CREATE FUNCTION yengatomu_parser_end(internal) RETURNS void AS 'MODULE_PATHNAME' LANGUAGE C STRICT PARALLEL SAFE;
CREATE FUNCTION yengatomu_parser_types(internal) RETURNS internal AS 'MODULE_PATHNAME' LANGUAGE C STRICT PARALLEL SAFE;

CREATE TEXT SEARCH PARSER yengatomu (
    START = yengatomu_parser_start,
    GETTOKEN = yengatomu_parser_token,
    END = yengatomu_parser_end,
    HEADLINE = pg_catalog.prsd_headline,
    LEXTYPES = yengatomu_parser_types
);
COMMENT ON TEXT SEARCH PARSER yengatomu IS 'words and numbers of UAX #29';

CREATE TEXT SEARCH CONFIGURATION yengatomu (PARSER = yengatomu);
COMMENT ON TEXT SEARCH CONFIGURATION yengatomu IS 'words of every language, in lower case';
ALTER TEXT SEARCH CONFIGURATION yengatomu ADD MAPPING FOR word, number WITH pg_catalog.simple;
