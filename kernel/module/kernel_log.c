// SPDX-License-Identifier: GPL-2.0
/*
 * What the kernel itself says of its workqueues: "Showing busy workqueues and worker pools:", and what follows. It is
 * the end of what SysRq-t prints, which the guest has asked for. That isn't shown on the console, since all tasks come
 * before it, so it is read from the kernel's log.
 */
#define pr_fmt(fmt) "wqjudge: " fmt
#include <linux/kmsg_dump.h>
#include <linux/slab.h>
#include <linux/string.h>
#include "wqjudge.h"

#define LINE	512
#define HEAD	"Showing busy workqueues"

/* The next line of the log, without its time. There is none if the answer is NULL. */
static char *next_of(struct kmsg_dump_iter *at, char *line)
{
	char *text;
	size_t len;

	if (!kmsg_dump_get_line(at, false, line, LINE - 1, &len))
		return NULL;
	line[len] = 0;
	strim(line);
	text = *line == '[' ? strstr(line, "] ") : NULL;
	return text ? text + 2 : line;
}

/* Finds the last such list in the log, and prints it: lines `busy TEXT`. */
int print_busy(void)
{
	struct kmsg_dump_iter at, list;
	char *line = kmalloc(LINE, GFP_KERNEL), *text;
	bool found = false;

	if (!line)
		return -ENOMEM;
	kmsg_dump_rewind(&at);
	while ((text = next_of(&at, line)))
		if (!strncmp(text, HEAD, strlen(HEAD))) {
			list = at;
			found = true;
		}
	say("busy %s\n", found ? HEAD : "(there is no list in the kernel's log)");
	/* What is printed here is behind it in the same log. */
	while (found && (text = next_of(&list, line)) && strncmp(text, "wqjudge:", strlen("wqjudge:")))
		say("busy %s\n", text);
	kfree(line);
	return 0;
}
