// SPDX-License-Identifier: GPL-2.0
/*
 * What a guest sees of the host's files.
 *
 * On the host, files have times of its own clock, belong to the user who runs the
 * guest, and have numbers that depend on its disk. A guest that saw these would
 * differ from run to run: nginx sends times as ETag, initdb checks owners. Instead:
 *
 * - A read-only file system (the root) shows times no later than the guest's
 *   first, one time per file, and numbers that depend on the path alone.
 * - In a file system that can be written (the output folder) every file has a
 *   view: number, owner, mode and times as the guest made them. The host's file
 *   keeps the user as its owner, who can always read and write it.
 * - Sizes and links of directories, blocks and free space are the same everywhere.
 *
 * A view lives as long as the guest, since hostfs forgets an inode after its last
 * use. A file that is made gets a new view, even if the host reuses a number.
 */
#include <linux/cred.h>
#include <linux/hashtable.h>
#include <linux/slab.h>
#include <linux/statfs.h>
#include <linux/string.h>
#include <linux/timekeeping.h>
#include "guest_view.h"

#define BLOCKS (1ULL << 28)		/* 1 TiB, half of it free */

struct guest_view {
	struct hlist_node node;
	u64 device, inode;		/* the host's */
	u64 number;			/* the guest's */
	bool is_kept;			/* what follows is known */
	umode_t mode;
	kuid_t uid;
	kgid_t gid;
	struct timespec64 atime, mtime, ctime;
};

static DEFINE_HASHTABLE(views, 12);
static u64 numbers = 2;			/* 1 is the root */

/* FNV-1a: a number that depends on the text alone */
static u64 hash_text(u64 hash, const char *text, int bytes)
{
	while (bytes-- > 0) {
		hash ^= (unsigned char)*text++;
		hash *= 0x100000001b3ULL;
	}
	return hash;
}

static u64 number_of_path(const char *path, const char *name, int bytes)
{
	u64 hash = hash_text(0xcbf29ce484222325ULL, path, strlen(path));

	if (bytes)
		hash = hash_text(hash_text(hash, "/", 1), name, bytes);
	return hash >> 16 | 1ULL << 47;	/* always 15 digits, so that it prints with the same width */
}

static struct guest_view *find(u64 device, u64 inode)
{
	struct guest_view *view;

	hash_for_each_possible(views, view, node, device ^ inode)
		if (view->device == device && view->inode == inode)
			return view;
	return NULL;
}

static struct guest_view *add(u64 device, u64 inode)
{
	struct guest_view *view = kzalloc(sizeof(*view), GFP_KERNEL);

	if (!view)
		return NULL;
	view->device = device;
	view->inode = inode;
	view->number = numbers++;
	hash_add(views, &view->node, device ^ inode);
	return view;
}

/* Times of the host after the guest's first second count as that. */
static void clamp_times(struct hostfs_stat *st)
{
	static time64_t first;

	if (!first)
		first = ktime_get_real_seconds();
	if (st->mtime.tv_sec >= first)
		st->mtime.tv_sec = first;
	st->mtime.tv_nsec = 0;
	st->atime = st->ctime = st->mtime;
}

static void show_kept(const struct guest_view *view, struct hostfs_stat *st)
{
	st->mode = (st->mode & S_IFMT) | (view->mode & ~S_IFMT);
	st->uid = from_kuid(&init_user_ns, view->uid);
	st->gid = from_kgid(&init_user_ns, view->gid);
	st->atime = (struct hostfs_timespec){ view->atime.tv_sec, view->atime.tv_nsec };
	st->mtime = (struct hostfs_timespec){ view->mtime.tv_sec, view->mtime.tv_nsec };
	st->ctime = (struct hostfs_timespec){ view->ctime.tv_sec, view->ctime.tv_nsec };
}

static void show_sizes(struct hostfs_stat *st)
{
	if (S_ISDIR(st->mode)) {
		st->size = 4096;
		st->nlink = 1;		/* unknown, as on btrfs */
	}
	st->blksize = 4096;
	st->blocks = S_ISLNK(st->mode) ? 0 : (st->size + 4095) / 4096 * 8;
}

struct guest_view *guest_view_of(struct super_block *sb, const char *path,
				 struct hostfs_stat *st)
{
	struct guest_view *view = NULL;

	show_sizes(st);
	clamp_times(st);
	if (sb_rdonly(sb)) {
		st->ino = number_of_path(path, "", 0);
		return NULL;
	}
	view = find(st->dev, st->ino);
	if (!view)
		view = add(st->dev, st->ino);
	if (!view)
		return NULL;
	st->ino = view->number;
	if (view->is_kept) {
		show_kept(view, st);
	} else {
		/* made before the run, by the user */
		st->uid = st->gid = 0;
	}
	return view;
}

u64 guest_view_number(struct super_block *sb, const char *directory, const char *name, int bytes,
		      u64 device, u64 inode)
{
	struct guest_view *view;

	if (sb_rdonly(sb))
		return number_of_path(directory, name, bytes);
	view = find(device, inode);
	if (!view)
		view = add(device, inode);
	return view ? view->number : 1;
}

void guest_view_created(struct inode *directory, const char *path, umode_t mode)
{
	struct guest_view *view;
	struct hostfs_stat st;

	if (stat_file(path, &st, -1))
		return;
	view = find(st.dev, st.ino);
	if (view)
		hash_del(&view->node);	/* its file is gone, but an inode may still use it */
	view = add(st.dev, st.ino);
	if (!view)
		return;
	view->is_kept = true;
	view->mode = mode;
	view->uid = current_fsuid();
	view->gid = directory->i_mode & S_ISGID ? directory->i_gid : current_fsgid();
	view->atime = view->mtime = view->ctime = current_time(directory);
}

void guest_view_keep(struct inode *inode, struct guest_view *view)
{
	if (!view)
		return;
	view->is_kept = true;
	view->mode = inode->i_mode;
	view->uid = inode->i_uid;
	view->gid = inode->i_gid;
	view->atime = inode->i_atime;
	view->mtime = inode->i_mtime;
	view->ctime = inode->i_ctime;
}

void guest_view_changed(struct inode *directory, struct guest_view *view)
{
	directory->i_mtime = directory->i_ctime = current_time(directory);
	guest_view_keep(directory, view);
}

void guest_view_statfs(struct kstatfs *sf)
{
	sf->f_bsize = 4096;
	sf->f_blocks = BLOCKS;
	sf->f_bfree = sf->f_bavail = BLOCKS / 2;
	sf->f_files = BLOCKS;
	sf->f_ffree = BLOCKS / 2;
	sf->f_namelen = NAME_MAX;
	memset(&sf->f_fsid, 0, sizeof(sf->f_fsid));
}
