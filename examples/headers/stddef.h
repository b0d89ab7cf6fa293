/* For the kit's C compiler, which has no headers of its own. */
#pragma once
typedef __SIZE_TYPE__ size_t;
#define NULL ((void *)0)
