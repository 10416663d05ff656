/* The header asks for no other. */
#include <yildegga.h>
