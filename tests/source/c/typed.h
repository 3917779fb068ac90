/* The structs of typed.c. Only an initialiser there says what a type's `work` is. */
struct ty_type {
	const char *name;
	void (*work)(struct work_struct *work);
};

struct ty_call {
	const struct ty_type *type;
	struct work_struct work;
	struct workqueue_struct *wq;
};
