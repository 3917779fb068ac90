/* SPDX-License-Identifier: GPL-2.0 */
/*
 * What the module has to know of a kernel's inside, for each series that it was read in. Any other series is refused
 * here: nothing is guessed. No structure of kernel/workqueue.c is looked into; all that is needed is what a rescuer's
 * thread is called.
 */
#ifndef WQJUDGE_SERIES_H
#define WQJUDGE_SERIES_H

#include <linux/version.h>

#define IS_SERIES(major, minor)						\
	(LINUX_VERSION_CODE >= KERNEL_VERSION(major, minor, 0) &&	\
	 LINUX_VERSION_CODE < KERNEL_VERSION(major, minor + 1, 0))

#if IS_SERIES(6, 1)
/* kernel/workqueue.c:4281 init_rescuer: kthread_create(rescuer_thread, rescuer, "%s", wq->name), in 6.1.192 */
#define RESCUER_COMM "%s"
#elif IS_SERIES(6, 12)
/* kernel/workqueue.c:2777 format_worker_id, which init_rescuer calls, in 6.12.117 */
#define RESCUER_COMM "kworker/R-%s"
#else
#error "this series of Linux isn't known: read its kernel/workqueue.c, and add what a rescuer's thread is called"
#endif

/*
 * All other workers are called so (6.1.192: create_worker, 6.12.117: format_worker_id), and the name of a task has 15
 * bytes at most: so that of a workqueue may have WQ_NAME_MAX, and must not begin like a worker's.
 */
#define WORKER_COMM "kworker/"
#define ANY_RESCUER_COMM "kworker/R-"	/* in 6.12 */
#define WQ_NAME_MAX 5

#endif
