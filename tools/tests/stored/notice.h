/* Made from notice.html by tools/page from-html --c. Do not edit. */
#ifndef NOTICE_H
#define NOTICE_H

#include "mearrasot.h"

#if MEARRASOT_VERSION_MAJOR != 3
#error "these tables are for version 3 of mearrasot.h"
#endif

enum notice_node {
    NOTICE_PAGE = 0,
    NOTICE_HEAD = 1,
    NOTICE_TITLE = 2,
    NOTICE_NOTICE = 3,
    NOTICE_NEWS = 4,
    NOTICE_REGISTERS = 5,
    NOTICE_IMPORT = 6,
    NOTICE_IMPORT_VALUE = 7,
    NOTICE_EXPORT = 8,
    NOTICE_EXPORT_VALUE = 9,
    NOTICE_LAMP = 10,
    NOTICE_FOOT = 11,
    NOTICE_NODES = 12
};

static const uint32_t notice_words[] = {
    0x0000000cu, 0x00000000u, 0x05555000u, 0x00000055u, /* NOTICE_PAGE */
    0x00000002u, 0x00000000u, 0x05555000u, 0x00000055u, /* NOTICE_HEAD */
    0x00000001u, 0x00000001u, 0x05555000u, 0x00000055u, /* NOTICE_TITLE */
    0x00000002u, 0x00000000u, 0x05555000u, 0x00000055u, /* NOTICE_NOTICE */
    0x00000001u, 0x00000001u, 0x05555000u, 0x00000055u, /* NOTICE_NEWS */
    0x00000006u, 0x00000000u, 0x05555000u, 0x00000055u, /* NOTICE_REGISTERS */
    0x00000002u, 0x00000000u, 0x05555000u, 0x00000055u, /* NOTICE_IMPORT */
    0x00000001u, 0x00000001u, 0x05555000u, 0x00000055u, /* NOTICE_IMPORT_VALUE */
    0x00000002u, 0x00000000u, 0x05555000u, 0x00000055u, /* NOTICE_EXPORT */
    0x00000001u, 0x00000001u, 0x05555000u, 0x00000055u, /* NOTICE_EXPORT_VALUE */
    0x00000001u, 0x00000021u, 0x05555000u, 0x00000055u, /* NOTICE_LAMP */
    0x00000001u, 0x00000001u, 0x05515002u, 0x00000055u, /* NOTICE_FOOT */
};

/* Field by field, each for all nodes. */
static const float notice_numbers[] = {
    0.0f, 0.0f, 0.0f, 0.0f, 0.0f, 0.0f, 0.0f, 0.0f, 0.0f, 0.0f, 0.0f, 0.5f, /* 0 */
    0.0f, 0.0f, 0.0f, 0.0f, 0.0f, 0.0f, 0.0f, 0.0f, 0.0f, 0.0f, 0.0f, 0.0f, /* 1 */
    0.0f, 0.0f, 0.0f, 0.0f, 0.0f, 0.0f, 0.0f, 0.0f, 0.0f, 0.0f, 0.0f, 0.0f, /* 2 */
    0.0f, 0.0f, 0.0f, 0.0f, 0.0f, 0.0f, 0.0f, 0.0f, 0.0f, 0.0f, 0.0f, 0.0f, /* 3 */
    0.0f, 0.0f, 0.0f, 0.0f, 0.0f, 0.0f, 0.0f, 0.0f, 0.0f, 0.0f, 0.0f, 0.0f, /* 4 */
    0.0f, 0.0f, 0.0f, 0.0f, 0.0f, 0.0f, 0.0f, 0.0f, 0.0f, 0.0f, 0.0f, 0.0f, /* 5 */
    0.0f, 0.0f, 0.0f, 8.0f, 0.0f, 0.0f, 5.0f, 0.0f, 5.0f, 0.0f, 0.0f, 0.0f, /* 6 */
    0.0f, 0.0f, 0.0f, 8.0f, 0.0f, 0.0f, 0.0f, 0.0f, 0.0f, 0.0f, 0.0f, 0.0f, /* 7 */
    0.0f, 6.0f, 0.0f, 8.0f, 0.0f, 0.0f, 0.0f, 0.0f, 0.0f, 0.0f, 0.0f, 0.0f, /* 8 */
    0.0f, 0.0f, 0.0f, 8.0f, 0.0f, 0.0f, 0.0f, 0.0f, 0.0f, 0.0f, 0.0f, 0.0f, /* 9 */
    4.0f, 0.0f, 0.0f, 3.0f, 0.0f, 0.0f, 0.0f, 0.0f, 0.0f, 0.0f, 0.0f, 0.0f, /* 10 */
    4.0f, 0.0f, 0.0f, 3.0f, 0.0f, 0.0f, 0.0f, 0.0f, 0.0f, 0.0f, 0.0f, 0.0f, /* 11 */
    4.0f, 0.0f, 0.0f, 3.0f, 0.0f, 0.0f, 0.0f, 0.0f, 0.0f, 0.0f, 0.0f, 0.0f, /* 12 */
    4.0f, 0.0f, 0.0f, 3.0f, 0.0f, 0.0f, 0.0f, 0.0f, 0.0f, 0.0f, 0.0f, 0.0f, /* 13 */
    0.0f, 0.0f, 0.0f, 1.0f, 0.0f, 0.0f, 0.0f, 0.0f, 0.0f, 0.0f, 0.0f, 0.0f, /* 14 */
    0.0f, 0.0f, 0.0f, 1.0f, 0.0f, 0.0f, 0.0f, 0.0f, 0.0f, 0.0f, 0.0f, 0.0f, /* 15 */
    0.0f, 1.0f, 0.0f, 1.0f, 0.0f, 0.0f, 0.0f, 0.0f, 0.0f, 0.0f, 0.0f, 0.0f, /* 16 */
    0.0f, 0.0f, 0.0f, 1.0f, 0.0f, 0.0f, 0.0f, 0.0f, 0.0f, 0.0f, 0.0f, 0.0f, /* 17 */
    0.0f, 0.0f, 0.0f, 0.0f, 0.0f, 0.0f, 0.0f, 0.0f, 0.0f, 0.0f, 0.0f, 0.0f, /* 18 */
    0.0f, 0.0f, 0.0f, 0.0f, 0.0f, 0.0f, 0.0f, 0.0f, 0.0f, 0.0f, 0.0f, 0.0f, /* 19 */
    0.0f, 0.0f, 0.0f, 0.0f, 0.0f, 0.0f, 0.0f, 0.0f, 0.0f, 0.0f, 0.0f, 0.0f, /* 20 */
    0.0f, 0.0f, 0.0f, 0.0f, 0.0f, 0.0f, 0.0f, 0.0f, 0.0f, 0.0f, 0.0f, 0.0f, /* 21 */
    0.0f, 0.0f, 0.0f, 0.0f, 0.0f, 0.0f, 0.0f, 0.0f, 0.0f, 0.0f, 0.0f, 0.0f, /* 22 */
    0.0f, 0.0f, 0.0f, 0.0f, 0.0f, 0.0f, 0.0f, 0.0f, 0.0f, 0.0f, 0.0f, 0.0f, /* 23 */
    0.0f, 0.0f, 40.0f, 0.0f, 60.0f, 0.0f, 0.0f, 80.0f, 0.0f, 80.0f, 0.0f, 50.0f, /* 24 */
    0.0f, 0.0f, 120.0f, 0.0f, 200.0f, 0.0f, 0.0f, 160.0f, 0.0f, 160.0f, 0.0f, 90.0f, /* 25 */
    0.0f, 0.0f, 12.0f, 0.0f, 24.0f, 0.0f, 0.0f, 14.0f, 0.0f, 14.0f, 0.0f, 10.0f, /* 26 */
    0.0f, 0.0f, 0.0f, 0.0f, 0.0f, 0.0f, 0.0f, 0.0f, 0.0f, 0.0f, 0.0f, 0.0f, /* 27 */
};

static const struct mearrasot_question notice_question = {
    240.0f, 0.0f, 240.0f, 0.0f,
    MEARRASOT_KNOWN_WIDTH | MEARRASOT_MAX_CONTENT
};

#endif
