#include "library.h"

const struct library PROVED = {
    "the archive",        botskhela_found,      botskhela_open,
    botskhela_sheet,      botskhela_end,        botskhela_convert,
    botskhela_check,      botskhela_check_span, botskhela_tallied_book_check,
    botskhela_bare_check,
};
