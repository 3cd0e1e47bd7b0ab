/* main.c: reads the command line, runs the command that it asks for, and says what went wrong. */
#include "command.h"

#include <errno.h>
#include <getopt.h>
#include <inttypes.h>
#include <signal.h>
#include <stdarg.h>
#include <stdlib.h>
#include <string.h>

enum { OPTION_NAMES = 1 }; /* --names, which has no letter */

static const struct option longs[] = {
    {"format", required_argument, NULL, 'f'},
    {"edition", required_argument, NULL, 'e'},
    {"offset", required_argument, NULL, 'o'},
    {"length", required_argument, NULL, 'l'},
    {"json", no_argument, NULL, 'j'},
    {"hex", no_argument, NULL, 'x'},
    {"raw", no_argument, NULL, 'r'},
    {"dry-run", no_argument, NULL, 'n'},
    {"in-place", no_argument, NULL, 'i'},
    {"size", required_argument, NULL, 's'},
    {"code", required_argument, NULL, 'c'},
    {"names", no_argument, NULL, OPTION_NAMES},
    {"help", no_argument, NULL, 'h'},
    {"version", no_argument, NULL, 'V'},
    {NULL, 0, NULL, 0},
};

/* Keeps why something is refused; gives the status. */
int refuse(struct job *job, int status, int number, const char *format, ...)
{
    struct text message = {NULL, 0, 0};
    va_list arguments;

    va_start(arguments, format);
    text_add_list(&message, format, arguments);
    va_end(arguments);
    text_free(&job->problem.message);
    text_free(&job->problem.hint);
    job->problem.message = message;
    json_decref(job->problem.name);
    job->problem.name = NULL;
    job->problem.number = number;
    job->problem.place = -1;
    job->problem.entry = -1;
    return status;
}

/* Keeps what can be done about it. */
void hint(struct job *job, const char *format, ...)
{
    struct text message = {NULL, 0, 0};
    va_list arguments;

    va_start(arguments, format);
    text_add_list(&message, format, arguments);
    va_end(arguments);
    text_free(&job->problem.hint);
    job->problem.hint = message;
}

/* Says what is wrong with the command line, and how the command is used. */
int usage(struct job *job, const char *format, ...)
{
    struct text message = {NULL, 0, 0};
    va_list arguments;

    va_start(arguments, format);
    text_add_list(&message, format, arguments);
    va_end(arguments);
    fprintf(stderr, "boardid: %s\n", text_of(&message));
    text_free(&message);
    print_usage(job->command, stderr);
    return STATUS_USAGE;
}

/* The same of a word of the command line: what stands before it, the word, what stands after. */
static int usage_word(struct job *job, const char *before, const char *word, const char *after)
{
    struct text text = {NULL, 0, 0};

    text_word(&text, word);
    usage(job, "%s%s%s", before, text_of(&text), after);
    text_free(&text);
    return STATUS_USAGE;
}

/* Prints an object to standard output, and gives it back. */
void print_json(json_t *object)
{
    char *text = json_dumps(object, JSON_INDENT(2) | JSON_ENSURE_ASCII);

    if (text == NULL) {
        no_memory();
    }
    printf("%s\n", text);
    free(text);
    json_decref(object);
}

/* Says why the command did not do what it was asked for. */
static void report(const struct job *job, int status)
{
    const struct problem *problem = &job->problem;
    const char *name = problem->file != NULL ? problem->file : job->file;
    struct text text = {NULL, 0, 0};
    json_t *object, *error;

    text_add(&text, "boardid: ");
    if (name != NULL) {
        put_file_name(&text, name);
        text_add(&text, ": ");
    }
    text_add(&text, "%s", text_of(&problem->message));
    if (problem->number >= 0) {
        text_add(&text, " (refused %d)", problem->number);
    }
    fflush(stdout);
    fprintf(stderr, "%s\n", text_of(&text));
    text_free(&text);
    if (problem->hint.length != 0) {
        fprintf(stderr, "  hint: %s\n", text_of(&problem->hint));
    }
    if (!job->options.json) {
        return;
    }
    object = json_object();
    error = json_object();
    put(object, "file", name == NULL ? json_null() : json_word(name));
    put(error, "status", json_integer(status));
    put(error, "number", problem->number < 0 ? json_null() : json_integer(problem->number));
    put(error, "place", problem->place < 0 ? json_null() : json_integer(problem->place));
    put(error, "entry", problem->entry < 0 ? json_null() : json_integer(problem->entry));
    put(error, "name", problem->name == NULL ? json_null() : json_incref(problem->name));
    put(error, "message", json_word(text_of(&problem->message)));
    put(error, "hint", problem->hint.length == 0 ? json_null()
                                                 : json_word(text_of(&problem->hint)));
    put(object, "error", error);
    print_json(object);
}

/* Reads the number of an option. */
static int option_number(struct job *job, const char *name, const char *word, uint64_t most,
                         uint64_t *number)
{
    if (read_number(word, most, number)) {
        return STATUS_DONE;
    }
    usage_word(job, name, word, " is no number, decimal or hexadecimal after 0x, or is too large");
    return STATUS_USAGE;
}

/* What getopt has read. */
struct given {
    bool letters[128]; /* which options stand on the line */
    bool help, version;
};

/* Takes one option. */
static int take_option(struct job *job, int letter, const char *word)
{
    struct options *options = &job->options;
    uint64_t number = 0;
    int status = STATUS_DONE;

    switch (letter) {
    case 'f':
        if (!read_format(word, &options->format)) {
            return usage_word(job, "--format ", word, " is none of fboss, vpd, tiny, onie, 1 to 4");
        }
        break;
    case 'e':
        status = option_number(job, "--edition ", word, UINT32_MAX, &number);
        options->edition = (uint32_t)number;
        break;
    case 'o':
        status = option_number(job, "--offset ", word, UINT64_MAX, &options->offset);
        break;
    case 'l':
        options->has_length = true;
        status = option_number(job, "--length ", word, UINT64_MAX, &options->length);
        break;
    case 's':
        options->has_size = true;
        status = option_number(job, "--size ", word, UINT64_MAX, &options->size);
        break;
    case 'c':
        options->has_code = true;
        status = option_number(job, "--code ", word, UINT32_MAX, &options->code);
        break;
    case 'j':
        options->json = true;
        break;
    case 'x':
        options->hex = true;
        break;
    case 'r':
        options->raw = true;
        break;
    case 'n':
        options->dry_run = true;
        break;
    case 'i':
        options->in_place = true;
        break;
    default:
        options->names = true;
        break;
    }
    return status;
}

/* Says which option is none, lacks its value, or has one too many. */
static int wrong_option(struct job *job, int letter, char **words)
{
    const uint8_t byte = (uint8_t)optopt;
    struct text text = {NULL, 0, 0};
    int i = 0;

    while (longs[i].name != NULL && longs[i].val != optopt) {
        i++;
    }
    if (letter == ':') {
        text_add(&text, "the option --%s needs a value", longs[i].name);
    } else if (optopt != 0 && longs[i].name != NULL) {
        text_add(&text, "the option --%s takes no value", longs[i].name);
    } else if (optopt != 0) {
        text_add(&text, "there is no option -");
        text_escaped(&text, &byte, 1);
        text_add(&text, "; a word that is no option stands after --");
    } else {
        text_add(&text, "there is no such option: ");
        text_word(&text, words[optind - 1]);
    }
    usage(job, "%s", text_of(&text));
    text_free(&text);
    return STATUS_USAGE;
}

/* Reads the options of the whole line. The words that are left stand from optind on. */
static int read_options(struct job *job, int count, char **words, struct given *given)
{
    char **copy = memory(((size_t)count + 1) * sizeof *copy);
    int letter;

    /*
     * Which command it is decides the usage line, so the line is gone through once before. Words
     * are moved in that, so it is done with a copy.
     */
    memcpy(copy, words, (size_t)count * sizeof *copy);
    opterr = 0;
    while ((letter = getopt_long(count, copy, ":f:e:o:l:jxrnis:c:hV", longs, NULL)) != -1) {
        given->help = given->help || letter == 'h';
        given->version = given->version || letter == 'V';
    }
    if (optind < count) {
        job->command = find_command(copy[optind]);
    }
    free(copy);
    if (given->help || given->version) {
        return STATUS_DONE;
    }
    optind = 0;
    while ((letter = getopt_long(count, words, ":f:e:o:l:jxrnis:c:hV", longs, NULL)) != -1) {
        int status;

        if (letter == '?' || letter == ':') {
            return wrong_option(job, letter, words);
        }
        given->letters[letter & 0x7F] = true;
        status = take_option(job, letter, optarg);
        if (status != STATUS_DONE) {
            return status;
        }
    }
    return STATUS_DONE;
}

/* Whether the command has all options that stand on the line, and goes with their number. */
static int check_options(struct job *job, const struct given *given)
{
    const struct command *command = job->command;
    int i;

    for (i = 0; longs[i].name != NULL; i++) {
        if (given->letters[longs[i].val] && strchr(command->options, longs[i].val) == NULL) {
            return usage(job, "%s has no option --%s", command->name, longs[i].name);
        }
    }
    if (job->options.count < command->least) {
        return usage(job, "%s: too few words", command->name);
    }
    if (job->options.count > command->most) {
        return usage_word(job, "one word too many: ", job->options.words[command->most], "");
    }
    if (job->options.has_size && (job->options.in_place || job->options.has_length)) {
        return usage(job, "--size goes with neither --in-place nor --length");
    }
    return STATUS_DONE;
}

/* help: the help of a command, or of all. */
int command_help(struct job *job)
{
    const struct command *command = NULL;

    if (job->options.count > 0) {
        command = find_command(job->options.words[0]);
        if (command == NULL) {
            job->command = NULL;
            return usage_word(job, "there is no command ", job->options.words[0], "");
        }
    }
    print_help(command);
    return STATUS_DONE;
}

/* Runs what the command line asks for. */
static int run(struct job *job, int count, char **words)
{
    struct given given = {{false}, false, false};
    int status = read_options(job, count, words, &given);

    if (status != STATUS_DONE) {
        return status;
    }
    if (given.help) {
        print_help(job->command);
        return STATUS_DONE;
    }
    if (given.version) {
        printf("boardid %s\neditions 1 to %u\n", BOARDID_VERSION_TEXT, newest_edition());
        return STATUS_DONE;
    }
    if (optind >= count) {
        return usage(job, "say what is to be done");
    }
    if (job->command == NULL) {
        return usage_word(job, "there is no command ", words[optind], "");
    }
    job->options.words = words + optind + 1;
    job->options.count = count - optind - 1;
    status = check_options(job, &given);
    if (status != STATUS_DONE) {
        return status;
    }
    job->file = job->options.count > 0 ? job->options.words[0] : NULL;
    status = job->command->run(job);
    if (status != STATUS_DONE && status != STATUS_USAGE) {
        report(job, status);
    }
    return status;
}

int main(int count, char **words)
{
    struct job job = {.options = {.edition = BOARDID_EDITION},
                      .problem = {.number = -1, .place = -1, .entry = -1}};
    int status;

    hold_standard();
    /* Options stand anywhere on the line, whatever the environment says. */
    unsetenv("POSIXLY_CORRECT");
    /* A file that may not grow is told as any other that cannot be written. */
    signal(SIGXFSZ, SIG_IGN);
    status = run(&job, count, words);
    text_free(&job.problem.message);
    text_free(&job.problem.hint);
    json_decref(job.problem.name);
    errno = 0;
    if ((fflush(stdout) != 0 || ferror(stdout)) && status == STATUS_DONE) {
        fprintf(stderr, "boardid: standard output cannot be written%s%s\n", errno != 0 ? ": " : "",
                errno != 0 ? strerror(errno) : "");
        status = STATUS_FILE;
    }
    return status;
}
