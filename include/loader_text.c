/* A name and a sentence for each number of the loader; README.md has the same in its table. */
#include "loader_text.h"

/* What is said of any other number. */
#define NO_NAME ""
#define NO_TEXT "no number of the loader"

/* In ascending order of the numbers. */
static const struct {
    const char *name;
    const char *text;
} numbers[LOADER_NUMBERS] = {
    {"LOADER_DONE", "done"},
    {"LOADER_STORE_SIZE", "the store has not 64 to 65,535 bytes"},
    {"LOADER_STORE_UNSOUND", "the store is not sound"},
    {"LOADER_AID_LENGTH", "an AID has not 5 to 16 bytes"},
    {"LOADER_DOMAIN_EXISTS", "the domain exists already"},
    {"LOADER_DOMAIN_UNKNOWN", "the domain has not been created"},
    {"LOADER_DOMAIN_OCCUPIED", "a package lies in the domain"},
    {"LOADER_PACKAGE_UNKNOWN", "the package is not installed"},
    {"LOADER_PACKAGE_IMPORTED", "another package imports it"},
    {"LOADER_METHOD_UNKNOWN", "the package has no such class or method"},
    {"LOADER_FILE_MARK", "the file does not begin with mark and version, 1 or 2"},
    {"LOADER_FILE_LAYOUT", "the file does not read as laid out"},
    {"LOADER_PACKAGE_EXISTS", "the package is installed already"},
    {"LOADER_IMPORT_MISSING", "an import is not installed"},
    {"LOADER_CLASS_PARENTS", "a class has a parent that it may not have, or is too deep"},
    {"LOADER_METHOD_FORM", "a method's name is taken, or its form is not that of its class"},
    {"LOADER_CODE_SPLIT", "a code does not split into instructions"},
    {"LOADER_BRANCH_TARGET", "a branch goes where no instruction starts"},
    {"LOADER_CALL_REFERENCE", "a call names no method that it may call"},
    {"LOADER_CALL_POLICY", "a method called does not allow all that it must"},
    {"LOADER_RUNNING_POLICY", "a method that runs does not allow all that it must"},
    {"LOADER_STORE_FULL", "the entry does not fit"},
    {NO_NAME, NO_TEXT},
    {NO_NAME, NO_TEXT},
    {"LOADER_HANDLER", "a handler's offsets do not fit its code"},
    {NO_NAME, NO_TEXT},
    {"LOADER_CODE_INT", "a code does not keep to the subset without int"},
    {NO_NAME, NO_TEXT},
    {NO_NAME, NO_TEXT},
    {NO_NAME, NO_TEXT},
    {"LOADER_LIMITS", "a limit is out of its range"}
};

const char *loader_number_name(uint32_t number)
{
    return number < LOADER_NUMBERS ? numbers[number].name : NO_NAME;
}

const char *loader_number_text(uint32_t number)
{
    return number < LOADER_NUMBERS ? numbers[number].text : NO_TEXT;
}
