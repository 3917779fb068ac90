/* As libsas has it: a struct that stands for the work_struct in it, and events that hold one. */
struct ev_port;

struct sas_work {
	struct list_head drain_node;
	struct work_struct work;
};

struct sas_event {
	struct sas_work work;
	struct ev_port *port;
	int event;
};

static inline void INIT_SAS_WORK(struct sas_work *sw, void (*fn)(struct work_struct *))
{
	INIT_WORK(&sw->work, fn);
	INIT_LIST_HEAD(&sw->drain_node);
}

static inline void INIT_SAS_EVENT(struct sas_event *ev, void (*fn)(struct work_struct *), struct ev_port *port,
				  int event)
{
	INIT_SAS_WORK(&ev->work, fn);
	ev->port = port;
	ev->event = event;
}
