// The commands. Each does what it is asked and gives the exit status.
#ifndef COMMANDS_H
#define COMMANDS_H

#include "options.h"

int list_run(const struct options *options);
int report_run(const struct options *options);
int starts_run(const struct options *options);
int flow_run(const struct options *options);
int overload_run(const struct options *options);
int sheet_run(const struct options *options);
int trim_run(const struct options *options);
int crew_run(const struct options *options);
int draw_run(const struct options *options);

#endif
