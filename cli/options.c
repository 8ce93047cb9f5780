/* The command line. Options may stand anywhere before `--`, also before the command, and no option may be given twice: what is billed
 * must not hang on which of two places came last. */
#include "options.h"

#include <string.h>

#include "commands.h"
#include "number.h"
#include "report.h"

enum option_index { OPTION_PLACE, OPTION_TSV, OPTION_JSON, OPTION_OUTPUT, OPTION_HELP, OPTION_VERSION, OPTIONS };

#define TAKEN_BY(command) (1u << (command))
#define IMAGE_COMMANDS (TAKEN_BY(COMMAND_LIST) | TAKEN_BY(COMMAND_BILL))

/* --help and --version are looked at before the command, so they need no bits. */
static const struct option {
    const char *name;
    char letter;                 /* 0 if it has none */
    bool has_value;
    unsigned commands;
} options[OPTIONS] = {
    [OPTION_PLACE] = {"--place", 0, true, IMAGE_COMMANDS | TAKEN_BY(COMMAND_BODY)},
    [OPTION_TSV] = {"--tsv", 0, false, IMAGE_COMMANDS},
    [OPTION_JSON] = {"--json", 0, false, IMAGE_COMMANDS},
    [OPTION_OUTPUT] = {"--output", 'o', true, TAKEN_BY(COMMAND_BODY)},
    [OPTION_HELP] = {"--help", 0, false, 0},
    [OPTION_VERSION] = {"--version", 0, false, 0},
};

/* The words of the command line while they are taken apart. */
struct words {
    int count;
    char **words;
    int next;                    /* the first not yet taken */
    unsigned given;              /* a bit for each option that was there */
    const char *operands[4];     /* the command's name, two more, and one too many */
    unsigned operand_count;
};

/* Which option a word is, and its value where the word has that too: `--place=4`, `-oOUT`. */
static enum option_index find_option(const char *word, const char **value)
{
    *value = NULL;
    for (unsigned i = 0; i < OPTIONS; i++) {
        size_t length = strlen(options[i].name);
        if (strncmp(word, options[i].name, length) == 0 && (word[length] == '\0' || word[length] == '=')) {
            *value = word[length] == '=' ? word + length + 1 : NULL;
            return (enum option_index)i;
        }
        if (options[i].letter != 0 && word[1] == options[i].letter) {
            *value = word[2] != '\0' ? word + 2 : NULL;
            return (enum option_index)i;
        }
    }
    return OPTIONS;
}

static bool apply_option(struct request *request, enum option_index option, const char *value)
{
    switch (option) {
    case OPTION_PLACE:
        request->search = strcmp(value, "auto") == 0;
        if (!request->search && !parse_number(value, &request->place))
            return misused(value, "--place takes `auto` or a number below 2^64, decimal or 0x hexadecimal");
        return true;
    case OPTION_TSV:
        request->form = FORM_TSV;
        return true;
    case OPTION_JSON:
        request->form = FORM_JSON;
        return true;
    case OPTION_OUTPUT:
        request->out = value;
        return *value != '\0' || misused("--output", "the name of OUT is empty");
    case OPTION_HELP:
        request->help = true;
        return true;
    case OPTION_VERSION:
        request->version = true;
        return true;
    case OPTIONS:
        break;
    }
    return false;
}

static bool take_option(struct words *words, struct request *request)
{
    const char *word = words->words[words->next++];
    const char *value;
    enum option_index option = find_option(word, &value);
    if (option == OPTIONS)
        return misused(word, "there is no such option");
    if ((words->given >> option & 1u) != 0)
        return misused(options[option].name, "is given more than once");
    words->given |= 1u << option;
    if (!options[option].has_value && value != NULL)
        return misused(options[option].name, "takes no value");
    if (options[option].has_value && value == NULL) {
        if (words->next >= words->count)
            return misused(options[option].name, "needs a value");
        value = words->words[words->next++];
    }
    return apply_option(request, option, value);
}

static void take_operand(struct words *words)
{
    const char *word = words->words[words->next++];
    if (words->operand_count < sizeof words->operands / sizeof words->operands[0])
        words->operands[words->operand_count++] = word;
}

static bool take_words(struct words *words, struct request *request)
{
    bool options_ended = false;
    while (words->next < words->count) {
        const char *word = words->words[words->next];
        if (options_ended || word[0] != '-' || word[1] == '\0') {
            take_operand(words);
        } else if (strcmp(word, "--") == 0) {
            options_ended = true;
            words->next++;
        } else if (!take_option(words, request)) {
            return false;
        }
    }
    return true;
}

/* Whether the command takes these options, and takes them together. */
static bool check_options(const struct words *words, const struct request *request)
{
    for (unsigned i = 0; i < OPTIONS; i++)
        if ((words->given >> i & 1u) != 0 && (options[i].commands & TAKEN_BY(request->command)) == 0)
            return misused(options[i].name, "is no option of this command");
    if ((words->given >> OPTION_TSV & 1u) != 0 && (words->given >> OPTION_JSON & 1u) != 0)
        return misused("--tsv", "does not go together with --json");
    if (request->command == COMMAND_BODY && request->out == NULL)
        return misused("body", "needs -o OUT");
    return true;
}

bool parse_request(int count, char **words, struct request *request)
{
    struct words taken = {.count = count, .words = words, .next = 1};
    memset(request, 0, sizeof *request);
    if (!take_words(&taken, request))
        return false;
    request->assumed = (taken.given >> OPTION_PLACE & 1u) == 0;
    if (taken.operand_count > 0 && !find_command(taken.operands[0], &request->command))
        return false;
    if (request->help || request->version)
        return true;
    if (taken.operand_count == 0)
        return misused("no command is given", "one of list, bill, body and explain is needed");
    return check_options(&taken, request) && read_operands(taken.operands + 1, taken.operand_count - 1, request);
}
