/* Items inside a struct that is handed around for them, as libsas has them: inside.h. */
#include "inside.h"

struct in_event {
	struct in_work work;
	int what;
};

struct in_port {
	struct in_event events[2];
	struct in_work reset, enable;
	struct workqueue_struct *event_q, *disk_q;
};

static void in_found(struct work_struct *work)
{
}

static void in_lost(struct work_struct *work)
{
}

static void in_reset(struct work_struct *work)
{
	struct in_port *port = container_of(work, struct in_port, reset.work);

	flush_work(&port->enable.work);
}

static void in_enable(struct work_struct *work)
{
}

static const work_func_t in_functions[2] = {
	[0] = in_found,
	[1] = in_lost,
};

static void in_queue(struct in_port *port, struct in_work *iw)
{
	queue_work(port->event_q, &iw->work);
}

static void in_chain(struct in_port *port, struct in_work *iw)
{
	queue_work(port->disk_q, &iw->work);
}

static void in_chain_event(struct in_port *port, int event, struct in_work *iw)
{
	if (event)
		in_chain(port, iw);
}

void in_init(struct in_port *port)
{
	int i;

	port->event_q = alloc_workqueue("events", WQ_MEM_RECLAIM, 0);
	port->disk_q = alloc_workqueue("disks", WQ_MEM_RECLAIM, 0);
	for (i = 0; i < 2; i++)
		INIT_IN_WORK(&port->events[i].work, in_functions[i]);
	INIT_IN_WORK(&port->reset, in_reset);
	INIT_IN_WORK(&port->enable, in_enable);
	in_queue(port, &port->reset);
	in_queue(port, &port->enable);
	in_chain_event(port, 1, &port->events[1].work);
}
