/* What a plug-in shows its host: an object of this type, named plugin. */
struct plugin {
    const char *name;
    int (*apply)(int);
};
