// SPDX-License-Identifier: GPL-2.0
/*
 * /proc/dnlab. A write runs a line as a command of a scenario now; `end` ends the
 * experiment. A read returns the counts. Polling it returns POLLHUP once the
 * experiment is over.
 */
#include <linux/poll.h>
#include <linux/proc_fs.h>
#include <linux/seq_file.h>
#include <linux/uaccess.h>
#include "dnlab_kern.h"

enum { LINE = 400 };

static ssize_t dnlab_write(struct file *file, const char __user *from, size_t bytes,
			   loff_t *at)
{
	char line[LINE];
	unsigned long flags;
	int status;
	u64 now;

	if (bytes == 0 || bytes >= sizeof(line))
		return -EINVAL;
	if (copy_from_user(line, from, bytes))
		return -EFAULT;
	line[bytes] = 0;
	if (line[bytes - 1] == '\n')
		line[bytes - 1] = 0;
	if (strchr(line, '\n'))
		return -EINVAL;
	if (!strcmp(line, "end")) {
		dnlab_end();
		return bytes;
	}
	now = dnlab_begin(&flags);
	status = dn_command(line);
	dnlab_finish(now, flags);
	return status ? -EINVAL : bytes;
}

static int dnlab_show(struct seq_file *to, void *unused)
{
	char text[1024];
	int bytes = dn_format_counts(text, sizeof(text));

	dnlab_counts(text + bytes, sizeof(text) - bytes);
	seq_puts(to, text);
	return 0;
}

static int dnlab_open_proc(struct inode *inode, struct file *file)
{
	return single_open(file, dnlab_show, NULL);
}

static __poll_t dnlab_poll(struct file *file, struct poll_table_struct *table)
{
	poll_wait(file, &dnlab_over, table);
	return dn_is_over() ? EPOLLHUP : 0;
}

static const struct proc_ops dnlab_file = {
	.proc_open = dnlab_open_proc,
	.proc_read = seq_read,
	.proc_lseek = seq_lseek,
	.proc_release = single_release,
	.proc_write = dnlab_write,
	.proc_poll = dnlab_poll,
};

int dnlab_proc_init(void)
{
	return proc_create("dnlab", 0600, NULL, &dnlab_file) ? 0 : -ENOMEM;
}
