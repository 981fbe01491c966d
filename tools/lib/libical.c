/* Parses a file of messages with libical, and says what of them isn't what an iTIP message for to-dos has to be.

   The status is 0 where there is nothing to say, and 1 otherwise. */
#include <libical/ical.h>
#include <stdio.h>
#include <stdlib.h>

static const char *name;
static int wrong;

static void say(const char *what)
{
    printf("%s: %s\n", name, what);
    wrong = 1;
}

static char *line_of(char *room, size_t size, void *file)
{
    return fgets(room, (int)size, file);
}

static void want(icalcomponent *todo, icalproperty_kind kind)
{
    if (icalcomponent_count_properties(todo, kind) != 1) {
        char what[80];
        snprintf(what, sizeof what, "a to-do has %d of %s", icalcomponent_count_properties(todo, kind),
                 icalproperty_kind_to_string(kind));
        say(what);
    }
}

static void look_at(icalcomponent *message)
{
    icalproperty *method = icalcomponent_get_first_property(message, ICAL_METHOD_PROPERTY);
    int is_refresh = method && icalproperty_get_method(method) == ICAL_METHOD_REFRESH;
    icalcomponent *todo = icalcomponent_get_first_component(message, ICAL_VTODO_COMPONENT);

    if (!method)
        say("a message has no METHOD");
    if (!todo)
        say("a message has no to-do");
    if (icalcomponent_count_errors(message))
        say("libical finds an error");
    for (; todo; todo = icalcomponent_get_next_component(message, ICAL_VTODO_COMPONENT)) {
        want(todo, ICAL_UID_PROPERTY);
        want(todo, ICAL_DTSTAMP_PROPERTY);
        if (!is_refresh)
            want(todo, ICAL_SEQUENCE_PROPERTY);
    }
}

int main(int count, char **words)
{
    FILE *file;
    icalparser *parser;
    int messages = 0;
    char *line;

    if (count != 2 || !(file = fopen(name = words[1], "rb")))
        return 1;
    icalerror_set_errors_are_fatal(0);
    parser = icalparser_new();
    icalparser_set_gen_data(parser, file);
    do {
        icalcomponent *message;
        line = icalparser_get_line(parser, line_of);
        message = icalparser_add_line(parser, line);
        if (message) {
            look_at(message);
            icalcomponent_free(message);
            messages++;
        }
    } while (line);
    if (!messages)
        say("libical finds no message");
    icalparser_free(parser);
    fclose(file);
    return wrong;
}
