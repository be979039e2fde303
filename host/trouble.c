#include "trouble.h"

#include <stdarg.h>
#include <stdio.h>

int trouble_say(trouble *why, const char *format, ...)
{
    va_list values;
    va_start(values, format);
    vsnprintf(why->text, sizeof why->text, format, values);
    va_end(values);
    return 0;
}
