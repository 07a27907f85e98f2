// Texts between UTF-16 and UTF-8, and variables.
#include "layer.h"

// A text in UTF-8, with `/` between folders, where Windows takes `\` too and the program nothing else; the caller frees it. What is no
// text becomes the byte FF, which the program refuses.
char *narrow(const wchar_t *wide)
{
    int n = WideCharToMultiByte(CP_UTF8, WC_ERR_INVALID_CHARS, wide, -1, NULL, 0, NULL, NULL);
    char *text = n > 0 ? malloc((size_t)n) : _strdup("\xff");
    if (n > 0 && text != NULL)
        WideCharToMultiByte(CP_UTF8, 0, wide, -1, text, n, NULL, NULL);
    for (char *it = text; it != NULL && *it != 0; it++)
        *it = *it == '\\' ? '/' : *it;
    return text;
}

// A variable's value, which the caller frees; NULL where it isn't set.
char *variable(const char *name)
{
    static wchar_t wide[256], value[32767];
    // (its room is asked for: that of an empty one is 1, for the 0; wine takes no room of 32,768 units or more for what it is)
    if (MultiByteToWideChar(CP_UTF8, 0, name, -1, wide, 256) == 0 || GetEnvironmentVariableW(wide, NULL, 0) == 0)
        return NULL;
    *value = 0;
    return GetEnvironmentVariableW(wide, value, 32767) < 32767 ? narrow(value) : NULL;
}
