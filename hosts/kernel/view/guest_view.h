/* SPDX-License-Identifier: GPL-2.0 */
/*
 * What a guest sees of the host's files: everything except for properties that differ
 * between two runs or would show the host.
 */
#ifndef HOSTFS_GUEST_VIEW_H
#define HOSTFS_GUEST_VIEW_H
#include <linux/fs.h>
#include "hostfs.h"

struct guest_view;

/*
 * Replaces the host's stat of a file by the one that the guest is to see.
 * Returns the file's view if the file system can be written, or NULL.
 */
struct guest_view *guest_view_of(struct super_block *sb, const char *path,
				 struct hostfs_stat *st);
/* Returns the number that the guest sees for an inode that a directory lists. */
u64 guest_view_number(struct super_block *sb, const char *directory, const char *name, int bytes,
		      u64 device, u64 inode);
/* Notes that the guest made a file: its times are now, and the task owns it. */
void guest_view_created(struct inode *directory, const char *path, umode_t mode);
/* Notes that the guest changed the entries of a directory. */
void guest_view_changed(struct inode *directory, struct guest_view *view);
/* Notes owner, mode and times of an inode. */
void guest_view_keep(struct inode *inode, struct guest_view *view);
/* Fills in the statistics of a file system, which are independent of the host's. */
void guest_view_statfs(struct kstatfs *sf);

#endif
