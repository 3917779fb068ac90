/* whole.c includes this file, so it sees its static functions. */
static void part_stop(struct whole *w)
{
	flush_work(&w->end_work);
}
