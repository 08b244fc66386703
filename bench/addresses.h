/* The highest short address: what the yardsticks beside it share. */
#pragma once

enum { HIGHEST_SHORT = 0xFD };
