/* crownhazel: bank statements checked, kept in a journal and listed. */
#define _DEFAULT_SOURCE
#include <fcntl.h>
#include <signal.h>
#include <string.h>
#include <sys/stat.h>
#include <unistd.h>

#include "arguments.h"
#include "say.h"
#include "status.h"

static const char version[] = "crownhazel " VERSION "\n";

/* A closed descriptor would be given to the next file that is opened, and an answer written into it. What stands in
 * for it here cannot be read or written, so that its use is a failure with a message. */
static bool fill_descriptors(void) {
    static const int ways[] = {O_WRONLY, O_RDONLY, O_RDONLY};
    for (int descriptor = 0; descriptor <= 2; descriptor++) {
        if (fcntl(descriptor, F_GETFD) < 0 && open("/dev/null", ways[descriptor]) < 0) {
            return false;
        }
    }
    return true;
}

static int usage(void) {
    complain("usage", "crownhazel SUBCOMMAND ..; 'crownhazel --help' says more");
    return STATUS_USAGE;
}

static int no_subcommand(const char *word) {
    complain(word, "no subcommand");
    return usage();
}

static int run(const struct subcommand *subcommand, int count, char **words) {
    struct arguments arguments;
    if (!take_apart(subcommand, count, words, &arguments)) {
        complain("usage", "'crownhazel %s --help' says more", subcommand->name);
        return STATUS_USAGE;
    }
    return arguments.help ? print_help(subcommand) : subcommand->run(&arguments);
}

/* 'help', or 'help SUBCOMMAND'. */
static int help(int count, char **words) {
    const struct subcommand *subcommand = count > 1 ? subcommand_named(words[1]) : NULL;
    if (count > 2) {
        complain("help", "too many arguments");
        return usage();
    }
    return count > 1 && subcommand == NULL ? no_subcommand(words[1]) : print_help(subcommand);
}

static bool is_one_of(const char *word, const char *one, const char *other) {
    return strcmp(word, one) == 0 || strcmp(word, other) == 0;
}

/* The first word is a subcommand, a request for help or for the version. */
static int run_words(int count, char **words) {
    if (is_one_of(words[0], "-h", "--help")) {
        return print_help(NULL);
    }
    if (is_one_of(words[0], "-V", "--version")) {
        return answer_text(version, strlen(version));
    }
    if (strcmp(words[0], "help") == 0) {
        return help(count, words);
    }
    const struct subcommand *subcommand = subcommand_named(words[0]);
    return subcommand == NULL ? no_subcommand(words[0]) : run(subcommand, count, words);
}

/* A reader that goes away and a file that may not grow are failures of a write, not the end of the command. A child
 * that has ended is waited for, whatever the caller does with its own. What is made is the owner's alone from the
 * start. */
int main(int count, char **words) {
    signal(SIGPIPE, SIG_IGN);
    signal(SIGXFSZ, SIG_IGN);
    signal(SIGCHLD, SIG_DFL);
    umask(077);
    if (!fill_descriptors()) {
        return failed("/dev/null", "nothing stands in for a closed descriptor");
    }
    return count < 2 ? usage() : run_words(count - 1, words + 1);
}
