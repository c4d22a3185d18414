// Where in a refused line its fault begins. No other line is looked at for this, so the look is a plain one, and reading a line
// costs nothing for its columns.
#pragma once

#include "description.h"

// The column, from 1, of the leftmost fault that the line is refused for. The description has what the first bytes of the text
// say, as many as are taken: up to behind the line's LF if its form is right, and else up to some place before that LF.
unsigned column_of(Reason reason, unsigned line, std::string_view text, size_t taken, const Description &description);
