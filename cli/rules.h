/* The refusal numbers in plain words. */
#ifndef RULES_H
#define RULES_H

/* A row of docs/RULES.md. */
struct rule {
    const char *found;
    const char *whose;
    const char *ask;
};

/* The words of a number from 0, which is an acceptance, to PDI_LAST_RULE. */
const struct rule *rule_of(unsigned number);

/* Writes one rule, or a line for each, to standard output. */
void explain_rule(unsigned number);
void explain_all_rules(void);

#endif
