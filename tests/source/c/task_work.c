/* A work item, and two things that are called so and run on no workqueue: in a task, and in an interrupt. */
static void tw_work(struct work_struct *work)
{
	struct tw *t = container_of(work, struct tw, work);

	wait_for_completion(&t->done);
}

static void tw_in_task(struct callback_head *head)
{
}

static void tw_in_interrupt(struct irq_work *irq)
{
	struct tw *t = container_of(irq, struct tw, irq);

	complete(&t->done);
}

int tw_start(struct tw *t)
{
	t->wq = alloc_workqueue("tw", WQ_MEM_RECLAIM, 0);
	INIT_WORK(&t->work, tw_work);
	init_task_work(&t->task, tw_in_task);
	init_irq_work(&t->irq, tw_in_interrupt);
	queue_work(t->wq, &t->work);
	task_work_add(current, &t->task, TWA_RESUME);
	irq_work_queue(&t->irq);
	return 0;
}
