/* The functions of Wardhumis that a C front end calls, in libfrontend.a (built by `rt staticlib frontend`).
   They take any numbers, keep nothing between calls and may be called from any thread. */
#ifndef MTE_H
#define MTE_H

#include <stdint.h>

#ifdef __cplusplus
extern "C" {
#endif

/* What mte_choose_tag answers where there is no tag to choose. */
#define MTE_NO_TAG 16u

/* The codes of an instruction word. */
#define MTE_DONE 0u
#define MTE_UNDEFINED 2u

/* The tag, 0 to 15, that Arm's tag choice gives from a start tag, an offset and an exclude mask, whose bit t is set where
   tag t is excluded. With every tag excluded the tag is 0. MTE_NO_TAG if start or offset exceeds 15 or mask exceeds 65535. */
uint32_t mte_choose_tag(uint32_t start, uint32_t offset, uint32_t mask);

/* MTE_DONE if the word is one of the 22 modelled instruction forms, MTE_UNDEFINED if it is not. */
uint32_t mte_word_code(uint32_t word);

#ifdef __cplusplus
}
#endif

#endif
