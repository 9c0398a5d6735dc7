/* The kit's compiler brings no headers. Of this one the tests need: */
#ifndef STDDEF_H
#define STDDEF_H

typedef __SIZE_TYPE__ size_t;

#endif
