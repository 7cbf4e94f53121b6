/* The calls of Gushteral for C: checks of Git's tag names, reference names and path components, a mender of partial
   reference names, a register of names, and the words of refusals. They are in libgushteral_c.a, which needs only
   memcpy, memmove and memset beside it.

   For every call:
   - A pointer and the length after it are a string of that many bytes, which need not be text and may hold zero bytes.
     Where the length is 0 the pointer may be NULL. What is written to overlaps no other string of the call.
   - Nothing is allocated, kept or printed. What is const is only read. Calls from several threads do not disturb each
     other as long as no buffer is shared.
   - Each input has one answer; none is left out. */
#ifndef GUSHTERAL_H
#define GUSHTERAL_H

#include <stddef.h>
#include <stdint.h>

#ifdef __cplusplus
extern "C" {
#endif

/* Why a name is refused. */
enum {
    GUSHTERAL_ALLOWED = 0,
    GUSHTERAL_INVALID_BYTE = 1,      /* 0x00 to 0x1F, 0x7F, a space or one of \ ^ : [ ? ~ */
    GUSHTERAL_STARTS_WITH_SLASH = 2,
    GUSHTERAL_REPEATED_SLASH = 3,
    GUSHTERAL_REPEATED_DOT = 4,
    GUSHTERAL_LOCK_FILE_SUFFIX = 5,  /* a component that ends in .lock */
    GUSHTERAL_REFLOG_PORTION = 6,    /* @{ */
    GUSHTERAL_ASTERISK = 7,
    GUSHTERAL_STARTS_WITH_DOT = 8,   /* a component that starts with a dot */
    GUSHTERAL_ENDS_WITH_DOT = 9,
    GUSHTERAL_ENDS_WITH_SLASH = 10,
    GUSHTERAL_EMPTY = 11,
    GUSHTERAL_SOME_LOWERCASE = 12,   /* a complete name without a slash has a byte other than A to Z and _ */
    GUSHTERAL_RESERVED = 13          /* @; of branches also refs/heads/HEAD and a start refs/heads/- */
};

/* Why a path component is refused. */
enum {
    GUSHTERAL_COMPONENT_EMPTY = 21,
    GUSHTERAL_PATH_SEPARATOR = 22,   /* a slash, or with `windows` a backslash */
    GUSHTERAL_WINDOWS_PATH_PREFIX = 23,
    GUSHTERAL_WINDOWS_RESERVED_NAME = 24,
    GUSHTERAL_WINDOWS_ILLEGAL_CHARACTER = 25,
    GUSHTERAL_DOT_GIT_DIR = 26,
    GUSHTERAL_SYMLINKED_GIT_MODULES = 27,
    GUSHTERAL_RELATIVE = 28          /* . or .. */
};

/* Why a call that writes a text refuses. */
enum { GUSHTERAL_BUFFER_TOO_SHORT = 31 };

/* Why a register, a list of declared pairs or a pile of protections refuses. Of these, the calls here answer 32, 41 and
   42; all have words. */
enum {
    GUSHTERAL_TOO_LONG = 32,          /* a name or text for the register has more than 255 bytes */
    GUSHTERAL_DECLARED_TOO_LONG = 33, /* a component of a declared pair has more than 32 bytes */
    GUSHTERAL_TOO_MANY_LAYERS = 34,   /* a pile has more than 16 layers */
    GUSHTERAL_MET = 41,               /* a kept name meets the new one */
    GUSHTERAL_FULL = 42,              /* 128 names are kept */
    GUSHTERAL_NOT_KEPT = 43,          /* the name to rename or remove is not kept */
    GUSHTERAL_TOO_MANY_PAIRS = 44     /* 16 pairs are already declared */
};

/* A buffer of this length has room for the words of every refusal. */
enum { GUSHTERAL_WORDS_ROOM = 128 };

/* The answer of a check of names. */
typedef struct {
    uint32_t number; /* 0 where the name is allowed, else the number of the first refusal, 1 to 13 */
    uint32_t value;  /* the invalid byte for 1, else 0; the name that 13 refuses is the whole input */
} GushteralNameAnswer;

/* The answer of a call that writes a text. */
typedef struct {
    uint32_t number; /* 0, or 31 where the buffer is too short */
    size_t length;   /* the length of the text at the front of the buffer, 0 for 31 */
} GushteralTextAnswer;

/* The name of the mender's answer. */
typedef GushteralTextAnswer GushteralMendAnswer;

/* Whether the input is a tag name: refused by 1 to 11. */
GushteralNameAnswer gushteral_tag_name(const uint8_t *input, size_t length);

/* Whether the input is a partial reference name, such as main or heads/main: refused by 1 to 11 and 13. */
GushteralNameAnswer gushteral_reference_name_partial(const uint8_t *input, size_t length);

/* Whether the input is a complete reference name, such as HEAD or refs/heads/main: refused by 1 to 13. */
GushteralNameAnswer gushteral_reference_name(const uint8_t *input, size_t length);

/* Whether the input is a complete reference name that a branch may have: refused by 1 to 13. */
GushteralNameAnswer gushteral_reference_branch_name(const uint8_t *input, size_t length);

/* Writes the partial name to which the input is mended to the front of `out`, and answers its length. An allowed
   partial name stays as it is; the text is always an allowed one and never longer than the larger of 1 and `length`.
   Where `out_length` is less than the larger of 1 and `length`, the answer is 31 and no byte is written. Else the bytes
   after the text become zero up to the larger of 1 and `length`, and later bytes stay as they were. No zero byte is put
   after a text that fills this room. */
GushteralMendAnswer gushteral_reference_name_partial_or_sanitize(const uint8_t *input, size_t length,
                                                                 uint8_t *out, size_t out_length);

/* Whether the input may be a component of a path in a tree: 0 where it may, else the number of the first refusal, 21 to
   28. `link` is 0, or any other number for a symbolic link. The three protections are off at 0 and on at any other
   number; devices of Windows and characters that it forbids are refused where both `windows` and `ntfs` are on. */
uint32_t gushteral_path_component(const uint8_t *input, size_t length,
                                  uint8_t link, uint8_t windows, uint8_t hfs, uint8_t ntfs);

/* 1 where the component's device key is one of the listed names, as of CON or lpt1.txt, else 0. */
uint8_t gushteral_path_component_is_windows_device(const uint8_t *input, size_t length);

/* Enters names of `length` bytes each, one after another in `names`, into a register with no entry, and answers how many
   it keeps. The register is one of partial names on HFS+ over NTFS, and of names that meet it keeps the first. As many
   names are entered as there are bytes for answers; a rest shorter than `length` is left out, and where `length` is 0
   there is no name. Each answer becomes 0 where its name is kept, else the number of the refusal: of a partial name, of
   a component, or 32, 41 or 42. Later answers stay as they were. The register stands on the stack and takes about
   70,000 bytes of it. */
size_t gushteral_enter_all(const uint8_t *names, size_t names_length, size_t length,
                           uint8_t *answers, size_t answers_length);

/* Writes the words of the refusal by `number` to the front of `out`, and answers their length. `value` is the byte for
   1, where it is below 256, and counts for no other number. A number that is no refusal has no words: the answer is 0
   with length 0. Where `out_length` is less than the length of the words, the answer is 31 and no byte is written. Else
   later bytes of `out` stay as they were; no zero byte is put after the words. */
GushteralTextAnswer gushteral_refusal_text(uint32_t number, uint32_t value, uint8_t *out, size_t out_length);

#ifdef __cplusplus
}
#endif

#endif
