/* A second file of a program that includes the header. */

#include <vespruldo.h>

const char *words_of(uint32_t number);

const char *words_of(uint32_t number)
{
    return vespruldo_words(number);
}
