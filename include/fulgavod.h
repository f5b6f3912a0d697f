/* Fulgavod: templates, matchers, codes and patterns.
 *
 * Every function reads the bytes that it is given and answers a record by value. It keeps nothing, allocates nothing and calls nothing of the program's but
 * memcpy and memset; it may be called from several threads at once. A function with a buffer writes to its start only, and on any refusal not at all.
 * Bytes are any bytes, not only UTF-8. A pointer may not be NULL, even with length 0.
 *
 * Link: libkernel.a, which `rt lib` in crates/kernel leaves in crates/kernel/out.
 */
#ifndef FULGAVOD_H
#define FULGAVOD_H

#include <stddef.h>
#include <stdint.h>

#ifdef __cplusplus
extern "C" {
#endif

/* Limits, in bytes. */
#define FULGAVOD_TEMPLATE_LIMIT 4096 /* a longer template is refused (18) */
#define FULGAVOD_MATCHER_LIMIT 96    /* a longer matcher is refused (19) */
#define FULGAVOD_CODE_LIMIT 1024     /* a template whose code is longer is refused (20) */
#define FULGAVOD_PARTS_LIMIT 49      /* no pattern has more groups, the whole name counted */

/* Refusals. Of a template or a separator (layer 1): */
#define FULGAVOD_MISSING_HASH 1          /* a path does not begin with # */
#define FULGAVOD_MISSING_RANGE 2         /* a repeat has no .. */
#define FULGAVOD_MISSING_CONTROL 3       /* a closing mark is missing: `mark` */
#define FULGAVOD_TOO_MANY_CONTROL 4      /* a comma or bar too many, or two separators: `mark` */
#define FULGAVOD_TOO_MANY_CHILDREN 5     /* more than 7 steps before a path's index */
#define FULGAVOD_UNEXPECTED_PAIR 6       /* a pair where one power belongs */
#define FULGAVOD_INCORRECT_CONTROL 7     /* a $ that is followed by none of [ ( { */
#define FULGAVOD_INVALID_NUMBER 8        /* no number, or one that a path may not have */
#define FULGAVOD_CAPTURE_OVERFLOW 9      /* a negative capture */
#define FULGAVOD_NUMBER_OUT_OF_RANGE 16  /* a number that has no 32 bits */
#define FULGAVOD_TOO_MANY_PIECES 17      /* the 65th piece */
#define FULGAVOD_TEMPLATE_TOO_LONG 18
/* Of a matcher (layer 2): */
#define FULGAVOD_INVALID_CHILDREN_SPEC 10 /* one bracket without the other */
#define FULGAVOD_MATCHER_TOO_LONG 19
/* Of a pattern (layer 3): */
#define FULGAVOD_INVALID_PATTERN 12
/* Of a code, or of the buffer (layer 4): */
#define FULGAVOD_CODE_TOO_LONG 20
#define FULGAVOD_NO_CODE 21           /* bytes that are no accepted template's code */
#define FULGAVOD_BUFFER_TOO_SHORT 22  /* all else is well; the buffer is as it was */

/* What is refused. All fields are 0 where nothing is. */
typedef struct {
    uint32_t number; /* 0: accepted; else one of the numbers above */
    uint32_t layer;  /* 1 template, 2 matcher, 3 pattern, 4 book */
    uint32_t mark;   /* for 3: '$', or ']', ')', '}' for ]$, )$, }$; for 4: ',' or '|'; else 0 */
    uint32_t side;   /* 0, or the separator that is at fault: 1 left, 2 middle, 3 right */
    size_t piece;    /* of a separator's fault: its repeat's number among the pieces, from 0; else 0 */
    size_t place;    /* where the part at fault begins: in the text, or, where side is not 0, in the separator with || halved */
    size_t length;   /* and how many bytes it has; both 0 where no part is at fault */
} fulgavod_fault;

/* A matcher. Beside a fault all fields are 0. */
typedef struct {
    fulgavod_fault fault;
    size_t place;      /* where the data, the name or the pattern, stands in the text */
    size_t length;     /* how many bytes it has */
    uint32_t pattern;  /* 1: a pattern; 0: an exact name */
    uint32_t counted;  /* 1: a child count is given */
    uint32_t children; /* the child count, or 0 */
} fulgavod_matcher_record;

/* A template. Beside a fault all fields are 0. */
typedef struct {
    fulgavod_fault fault;
    size_t place;      /* where the pieces begin, behind the prefix */
    size_t length;     /* how many bytes they have, up to the suffix */
    size_t pieces;     /* how many there are */
    uint32_t left;     /* the powers of the template */
    uint32_t right;
    uint32_t captures; /* 1: it has a capture */
    uint32_t capture;  /* the greatest one, or 0 */
} fulgavod_template_record;

/* What was written. */
typedef struct {
    fulgavod_fault fault;
    size_t length; /* how many bytes were written to the start of the buffer; 0 beside a fault */
} fulgavod_written;

/* The groups of a pattern. */
typedef struct {
    fulgavod_fault fault;
    size_t count; /* at least 1: number 0 is the whole name; 0 beside a fault */
} fulgavod_groups_record;

/* A match. */
typedef struct {
    fulgavod_fault fault;
    uint32_t matches; /* 1: the pattern matches the whole name; 0: it does not, or there is a fault */
    size_t count;     /* how many parts were written: one for each group; 0 where matches is 0 */
} fulgavod_matched;

/* What a group took of a name. */
typedef struct {
    uint32_t taken; /* 0: the group took no part */
    size_t from;    /* the part: from this byte */
    size_t to;      /* up to, not including, this byte */
} fulgavod_part;

/* Reads a matcher. */
fulgavod_matcher_record fulgavod_matcher(const uint8_t *text, size_t text_length);

/* Reads a template; the separators of its repeats are not read, and `capture` is the greatest of the pieces alone. */
fulgavod_template_record fulgavod_template(const uint8_t *text, size_t text_length);

/* Reads a template with the separators of its repeats; `capture` is the greatest of all. */
fulgavod_template_record fulgavod_formatter(const uint8_t *text, size_t text_length);

/* Writes the code of a template. Refuses as fulgavod_formatter, then 20, then 22. */
fulgavod_written fulgavod_encode(const uint8_t *text, size_t text_length, uint8_t *out, size_t out_length);

/* Writes the template that a code stands for: at most four times as many bytes as the code. Refuses 21, then 22. */
fulgavod_written fulgavod_write_back(const uint8_t *code, size_t code_length, uint8_t *out, size_t out_length);

/* Counts the groups of a pattern of the plain engine. Refuses 12. */
fulgavod_groups_record fulgavod_groups(const uint8_t *pattern, size_t pattern_length);

/* Matches a pattern of the plain engine with a whole name of at most 255 bytes (a longer name does not match) and writes what each group took.
 * Refuses 12; then, of a name that matches, 22 where `parts` has room for fewer than the groups. */
fulgavod_matched fulgavod_match(const uint8_t *pattern, size_t pattern_length, const uint8_t *name, size_t name_length, fulgavod_part *parts, size_t parts_length);

#ifdef __cplusplus
}
#endif

#endif
