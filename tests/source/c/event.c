/* Items that are set by a pointer to the event that they are in: event.h. */
#include "event.h"

struct ev_port {
	struct sas_work reset;
	struct workqueue_struct *event_q;
};

static void ev_reset(struct work_struct *work)
{
}

static void ev_found(struct work_struct *work)
{
	struct sas_event *ev = container_of(work, struct sas_event, work.work);

	flush_work(&ev->port->reset.work);
}

static void ev_lost(struct work_struct *work)
{
}

static void ev_queue(struct ev_port *port, struct sas_work *sw)
{
	queue_work(port->event_q, &sw->work);
}

static void ev_queue_event(int event, struct sas_work *work, struct ev_port *port)
{
	ev_queue(port, work);
}

void ev_notify_found(struct ev_port *port)
{
	struct sas_event *ev = ev_alloc(port);

	INIT_SAS_EVENT(ev, ev_found, port, 1);
	ev_queue_event(1, &ev->work, port);
}

void ev_notify_lost(struct ev_port *port)
{
	struct sas_event *ev = ev_alloc(port);

	INIT_SAS_EVENT(ev, ev_lost, port, 2);
	ev_queue_event(2, &ev->work, port);
}

void ev_init(struct ev_port *port)
{
	port->event_q = alloc_workqueue("events", WQ_MEM_RECLAIM, 0);
	INIT_SAS_WORK(&port->reset, ev_reset);
	ev_queue(port, &port->reset);
}
