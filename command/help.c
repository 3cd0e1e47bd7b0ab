/* help.c: the commands, and the texts of --help. */
#include "command.h"

#include <string.h>

const struct command commands[] = {
    {"list", "feolj\1", 1, 1, command_list, "[OPTIONS] FILE", "list the entries of an image",
     "Prints a line about the image and then a table: each entry's number, code, name and value.\n"
     "A byte that is no printable ASCII is shown as \\x1b, a backslash as two.\n"
     "      --names        print only a name for each entry that get takes, one on a line\n"},
    {"get", "feoljxr", 2, 2, command_get, "[OPTIONS] FILE NAME", "print one value",
     "Prints the value alone on a line. NAME is #3 for entry 3, a document's name as \"Serial\n"
     "Number\" or serial-number, a short name as serial, a VPD key, or a code as 0x23.\n"
     "  -x, --hex          print it in hexadecimal\n"
     "  -r, --raw          print its bytes as they are; not to a terminal\n"},
    {"set", "feoljxnis", 3, 3, command_set, "[OPTIONS] FILE NAME VALUE",
     "give an entry a new value",
     "VALUE is typed as get prints it; `boardid names` says of which kind it is:\n"
     "  text       any text                     number    decimal, or hexadecimal after 0x\n"
     "  address    02:1a:2b:3c:4d:5e; in FBOSS with a count, 02:1a:2b:3c:4d:5e/16\n"
     "  date       2023-02-28                   datetime  2023-02-28T12:34:56\n"
     "  string     the text, which is put into the pool\n"
     "  flags      assembly,configuration,burn-in,system, any of them, or none\n"
     "  identity   serial=S part=P revision=0A.12 free=2020 batch=1234, any of them\n"
     "  bytes      hexadecimal, 0a1b; of every other kind with --hex\n"
     "A VALUE that begins with - stands after --.\n"
     "  -x, --hex          VALUE is bytes in hexadecimal, 0a1b, 0a:1b or 0a 1b\n"},
    {"add", "feoljxnisc", 3, 3, command_add, "[OPTIONS] FILE NAME VALUE", "add an entry",
     "NAME is a document's name, a short name or a code; in VPD it is the key. VALUE is typed as\n"
     "in set.\n"
     "  -x, --hex          VALUE is bytes in hexadecimal, 0a1b, 0a:1b or 0a 1b\n"
     "  -c, --code N       VPD: the type of the entry, else 0x01\n"},
    {"remove", "feoljnis", 2, 2, command_remove, "[OPTIONS] FILE NAME", "remove an entry",
     "NAME is as in get.\n"},
    {"check", "feolj", 1, 1, command_check, "[OPTIONS] FILE", "say whether an image is right",
     "Says format, edition, entries, bytes used and bytes free; or what is wrong, and where.\n"},
    {"strings", "feolj", 1, 1, command_strings, "[OPTIONS] FILE",
     "list the strings of a Tiny image's pool", "Prints each string with its number.\n"},
    {"vendor", "feoljnis", 1, 10, command_vendor, "[OPTIONS] FILE [NAME=VALUE ..]",
     "show or change an amplifier's calibration",
     "Shows the serial number and the eight offsets of the vendor payload of an ONIE image. With\n"
     "NAME=VALUE it changes them, all or none: serial=TEXT, and in decibels, -12.8 to 12.7,\n"
     "c-band-west-in, c-band-west-out, c-band-east-in, c-band-east-out, l-band-west-in,\n"
     "l-band-west-out, l-band-east-in, l-band-east-out.\n"},
    {"write", "feoljnis", 1, 2, command_write, "[OPTIONS] FILE [JSON]", "make an image from JSON",
     "JSON is a file with what `boardid list --json` gives, or an array of entries; standard\n"
     "input where it is - or not given. An entry has code, name or short, in VPD key, and value\n"
     "or bytes. A new FILE gets the image's own length, or --size; an old one keeps its length,\n"
     "and what stands before --offset and after --length.\n"},
    {"names", "fej", 0, 0, command_names, "[OPTIONS]", "list what the editions name",
     "Prints for each code its format, name, short names, the first edition that names it, and\n"
     "the kind of its value. -f and -e narrow it.\n"},
    {"room", "fejni", 2, 4, command_room,
     "[OPTIONS] list FILE | add|replace FILE BOARD BODY | remove FILE BOARD | fetch FILE BOARD OUT",
     "list and change the boards of a room file",
     "BOARD is a number, 0 to 4294967295. BODY is a file with what was read from the board's\n"
     "chip; its format is detected, or that of -f. add makes FILE where it is not there. fetch\n"
     "writes the body to the file OUT; - is standard output.\n"},
    {"help", "", 0, 1, command_help, "[COMMAND]", "print the help of a command, or of all", ""},
    {NULL, NULL, 0, 0, NULL, NULL, NULL, NULL},
};

/* An option, the letter by which commands have it, and its line in a help. */
struct option_help {
    char letter;
    const char *line;
};

static const struct option_help option_helps[] = {
    {'f', "  -f, --format F     fboss, vpd, tiny, onie, or 1 to 4; else it is detected\n"},
    {'e', "  -e, --edition N    the edition to ask the library with; else 4\n"},
    {'o', "  -o, --offset N     the image begins at byte N of the file, decimal or 0x..\n"},
    {'l', "  -l, --length N     the image's room has N bytes; else all to the file's end\n"},
    {'s', "  -s, --size N       make the image's room N bytes, longer or shorter\n"},
    {'n', "  -n, --dry-run      show what would change, and change nothing\n"},
    {'i', "  -i, --in-place     write only the bytes that differ, into the file; read them back\n"},
    {'j', "  -j, --json         print JSON\n"},
};

/* The examples of the commands. */
static const char *const examples[][2] = {
    {"list", "boardid list samples/onie.bin"},
    {"get", "boardid get samples/onie.bin serial"},
    {"set", "boardid set my.bin serial LAB-000472"},
    {"add", "boardid add my.bin cpu-mac 02:1a:2b:3c:4d:5e/16"},
    {"remove", "boardid remove --dry-run my.bin '#3'"},
    {"check", "boardid check --offset 0x100 --length 256 dump.bin"},
    {"strings", "boardid strings samples/tiny.bin"},
    {"vendor", "boardid vendor my.bin c-band-west-in=2.4 serial=DQ000MPW"},
    {"write", "boardid list --json a.bin | boardid write b.bin"},
    {"names", "boardid names --format onie"},
    {"room", "boardid room fetch samples/room.bin 2001 board.bin"},
    {"help", "boardid help set"},
};

/* The command of a name; null where there is none. */
const struct command *find_command(const char *name)
{
    const struct command *command;

    for (command = commands; command->name != NULL; command++) {
        if (strcmp(command->name, name) == 0) {
            return command;
        }
    }
    return NULL;
}

/* Prints the usage line of a command, or of all. */
void print_usage(const struct command *command, FILE *out)
{
    if (command == NULL) {
        fprintf(out, "usage: boardid COMMAND [OPTIONS] ARGUMENTS; boardid --help says more\n");
    } else {
        fprintf(out, "usage: boardid %s %s\n", command->name, command->usage);
    }
}

/* Prints the help of all. */
static void print_all(void)
{
    const struct command *command;
    size_t i;

    printf("usage: boardid COMMAND [OPTIONS] ARGUMENTS\n\n"
           "Reads, writes and edits the identity chips of boards, as files: FBOSS v5, VPD 2.0,\n"
           "Tiny EEPROM version 2 and ONIE TlvInfo. A FILE that is - is standard input; a change\n"
           "puts the new file to standard output then.\n\nCommands:\n");
    for (command = commands; command->name != NULL; command++) {
        printf("  %-8s  %s\n", command->name, command->what);
    }
    printf("\nOptions, which may stand anywhere; -- ends them:\n");
    for (i = 0; i < sizeof option_helps / sizeof option_helps[0]; i++) {
        fputs(option_helps[i].line, stdout);
    }
    printf("  -x, --hex          set, add: VALUE is hexadecimal; get: print hexadecimal\n"
           "  -r, --raw          get: print the bytes as they are\n"
           "  -c, --code N       add: the type of a VPD entry\n"
           "      --names        list: only the names\n"
           "  -h, --help         print this; after a command, its help\n"
           "  -V, --version      print the version and the editions\n\n"
           "Exit status: 0 done; 1 refused; 2 a wrong command line; 3 a file cannot be read or\n"
           "written; 4 the chip is blank.\n\n"
           "Examples:\n"
           "  boardid list samples/onie.bin\n"
           "  boardid set --dry-run my.bin serial LAB-000472\n");
}

/* Prints the help of a command, or of all. */
void print_help(const struct command *command)
{
    size_t i;

    if (command == NULL) {
        print_all();
        return;
    }
    print_usage(command, stdout);
    printf("\nboardid %s: %s.\n%s", command->name, command->what, command->help);
    if (*command->options != '\0') {
        printf("\n");
    }
    for (i = 0; i < sizeof option_helps / sizeof option_helps[0]; i++) {
        if (strchr(command->options, option_helps[i].letter) != NULL) {
            fputs(option_helps[i].line, stdout);
        }
    }
    for (i = 0; i < sizeof examples / sizeof examples[0]; i++) {
        if (strcmp(examples[i][0], command->name) == 0) {
            printf("\nExample:\n  %s\n", examples[i][1]);
        }
    }
}
