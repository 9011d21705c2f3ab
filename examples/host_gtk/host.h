/* What the parts of the host know of each other: sessions.c has the session, widgets.c draws it, checks.c compares the two, and main.c has the
 * window. */
#ifndef HOST_H
#define HOST_H

#include "gelvopaun.h"

#include <gtk/gtk.h>

/* ---- the session */

/* An object, as gelvopaun_describe tells it. */
typedef struct {
  char *id, *class;
  bool is_made, is_disposed; /* made by a program, so that no event can name it */
  uint64_t parent;           /* 0 where it has none */
  GArray *children;          /* of uint64_t */
} Told;

/* Starts a session of a definition. `drawing` is called each time when no event is under way and none waits, and now and then while one takes
 * long. It answers why there is no session, which the caller frees, or NULL. */
char *start_session(const char *definition, size_t length, void (*drawing)(void));
/* Ends the session, also where an event is under way. */
void finish_session(void);

/* Has the session carry out a line, in parts, once the lines before it have ended. The line is freed. */
void send_event(char *line);

/* The lowest number, from `from` on, of an object that lives and is not disposed, or 0. */
uint64_t next_told(uint64_t from, Told *told);
void free_told(Told *told);
/* The value of a property as a plain text: `true`, `7`, `a text`, a nick, and an empty text for null. NULL where there is no such property. */
char *read_value(uint64_t object, const char *property);
/* A text as a JSON string. */
char *quoted(const char *text);

typedef struct {
  unsigned events, turns, refused; /* the turns are events too */
  uint64_t steps, parts; /* the counted steps of the latest event, and the parts in which they were made */
  bool is_resting, is_stopped;
} Course;
const Course *course(void);

/* ---- the widgets */

typedef struct {
  const char *name;          /* of the definition's class */
  GType (*type)(void);       /* of the widget */
  const char *properties[3]; /* each is drawn as the widget's property of the same name */
  const char *set, *emit;    /* what a person may do: set this property, emit this signal */
} Class;

typedef struct {
  uint64_t number;
  char *id;
  bool is_made, is_seen;
  const Class *class;
  GtkWidget *whole, *control; /* with its title, and the widget itself */
  GtkWidget *title;           /* NULL where the class has no `title` */
  GtkWidget *inside;          /* the box in which its children are */
} View;

/* All views, by the numbers of their objects. */
extern GHashTable *views;
/* Draws the session: the objects without a parent are children of `root`. */
void draw(GtkWidget *root);
/* The widget that has a property of a view's object, and this property of it as a plain text; NULL where the host does not draw it. */
char *shown_value(View *view, const char *property);
/* The properties that the host draws of a view's object, ended by NULL. */
const char *const *drawn_properties(const View *view);

/* ---- checks */

/* Acts as a person so many times, and compares all widgets with the session after each act. Status 1 where one differs. */
int check_widgets(GtkWidget *root, unsigned acts);
/* Presses the button with this id, and goes on acting while its event is under way, for at most so many seconds. Status 1 where the loop made no
 * turn for over 50 ms. */
int check_turns(GtkWidget *root, const char *id, unsigned seconds);

#endif
