#include "facts.h"

#include <stdio.h>
#include <string.h>

#include "html.h"

/* The words of the guides for a tag, and for a tag with its qualifier. */
static const struct {
    const char *tag;
    const char *qualifier; /* empty: any */
    const char *words;
} labels[] = {
    {"BGM", "452", "Payment order"},
    {"BGM", "303", "Request for transfer"},
    {"BGM", "456", "Debit advice"},
    {"BGM", "342", "Pre-advice"},
    {"BGM", "", "Message"},
    {"DTM", "137", "Dated"},
    {"DTM", "140", "Payment due"},
    {"DTM", "171", "Reference date"},
    {"DTM", "202", "Posting date"},
    {"DTM", "203", "Execution requested"},
    {"DTM", "209", "Value date"},
    {"DTM", "227", "Due at the beneficiary's bank"},
    {"DTM", "455", "Expected value date"},
    {"DTM", "", "Date"},
    {"RFF", "ACK", "Bank's reference"},
    {"RFF", "ACW", "Previous message"},
    {"RFF", "AEK", "Payment order number"},
    {"RFF", "AIK", "Bank's transaction reference"},
    {"RFF", "CK", "Cheque number"},
    {"RFF", "CR", "Customer's reference"},
    {"RFF", "FX", "Exchange contract"},
    {"RFF", "PQ", "Payment reference"},
    {"RFF", "RA", "Remittance advice"},
    {"RFF", "", "Reference"},
    {"FII", "AS", "Account servicing bank"},
    {"FII", "BF", "Account paid"},
    {"FII", "BQ", "Cheque drawn on"},
    {"FII", "I1", "Intermediary bank"},
    {"FII", "II", "Intermediary bank"},
    {"FII", "MR", "Receiver of the message"},
    {"FII", "MS", "Sender of the message"},
    {"FII", "OR", "Account debited"},
    {"FII", "PH", "Payor's bank"},
    {"FII", "", "Bank"},
    {"NAD", "BE", "Beneficiary"},
    {"NAD", "HQ", "Account owner"},
    {"NAD", "HX", "Debtor"},
    {"NAD", "MR", "Receiver of the message"},
    {"NAD", "MS", "Sender of the message"},
    {"NAD", "OY", "Ordering customer"},
    {"NAD", "PE", "Payee (account owner)"},
    {"NAD", "PL", "Payor (account owner)"},
    {"NAD", "RV", "Receiver of the cheque"},
    {"NAD", "", "Party"},
    {"MOA", "9", "Amount payable"},
    {"MOA", "12", "Amount remitted"},
    {"MOA", "36", "Converted amount"},
    {"MOA", "57", "Equivalent amount"},
    {"MOA", "60", "Posted amount"},
    {"MOA", "98", "Original amount"},
    {"MOA", "143", "Transfer amount"},
    {"MOA", "349", "Amount for information"},
    {"MOA", "", "Amount"},
    {"FTX", "PMD", "Text for the payee"},
    {"FTX", "", "Text"},
    {"CNT", "2", "Lines counted"},
    {"CNT", "", "Count"},
    {"AJT", "", "Adjustment"},
    {"ALC", "", "Allowance or charge"},
    {"AUT", "", "Authentication"},
    {"BUS", "", "Business function"},
    {"COM", "", "Contact by"},
    {"CTA", "", "Contact"},
    {"CUX", "", "Currencies"},
    {"DLI", "", "Document line"},
    {"DOC", "", "Document"},
    {"FCA", "", "Charges"},
    {"GIS", "", "Indicator"},
    {"INP", "", "Instruction"},
    {"LIN", "", "Advice"},
    {"LOC", "", "Place"},
    {"PAI", "", "Means of payment"},
    {"PCD", "", "Percentage"},
    {"PIA", "", "Product"},
    {"PRC", "", "Details are given as"},
    {"RCS", "", "Requirement"},
    {"SEQ", "", "Status"},
    {"TAX", "", "Tax"},
};

/* Tags whose first value is a qualifier, which the label tells. */
static const char qualified[] = "BGM DTM RFF FII NAD MOA FTX CNT";

/* What goes before a value. NULL: it is not shown, since it stands in the heading, or only says of another in which form it is given. */
static const struct {
    const char *tag;
    uint32_t element, component;
    const char *words;
} before[] = {
    {"BUS", 1, 1, NULL},
    {"CTA", 1, 1, NULL},
    {"CUX", 1, 1, NULL},
    {"CUX", 1, 2, "from "},
    {"CUX", 1, 4, "base "},
    {"CUX", 2, 1, NULL},
    {"CUX", 2, 2, "to "},
    {"CUX", 2, 4, "base "},
    {"CUX", 3, 1, "rate "},
    {"DTM", 1, 3, NULL},
    {"FII", 2, 4, "in "},
    {"FII", 3, 2, NULL},
    {"FII", 3, 3, NULL},
    {"FII", 3, 4, "branch "},
    {"FII", 3, 5, NULL},
    {"FII", 3, 6, NULL},
    {"LIN", 1, 1, NULL},
    {"NAD", 2, 2, NULL},
    {"NAD", 2, 3, NULL},
    {"RFF", 1, 3, "line "},
    {"SEQ", 2, 1, NULL},
};

/* What a code means, as the guides say it. */
static const struct {
    const char *tag;
    uint32_t element, component;
    const char *code;
    const char *words;
} meanings[] = {
    {"BGM", 3, 1, "7", "duplicate"},
    {"BGM", 3, 1, "9", "original"},
    {"BGM", 4, 1, "AB", "to be acknowledged"},
    {"BUS", 1, 2, "SAL", "salary payment"},
    {"BUS", 2, 1, "DO", "domestic"},
    {"BUS", 2, 1, "IN", "international"},
    {"COM", 1, 2, "EM", "electronic mail"},
    {"COM", 1, 2, "FX", "telefax"},
    {"COM", 1, 2, "TE", "telephone"},
    {"DOC", 1, 1, "380", "commercial invoice"},
    {"DOC", 1, 1, "381", "credit note"},
    {"DOC", 1, 1, "383", "debit note"},
    {"FCA", 1, 1, "13", "all borne by the payee"},
    {"FCA", 1, 1, "14", "each pays own cost"},
    {"FCA", 1, 1, "15", "all borne by the payor"},
    {"GIS", 1, 1, "37", "complete information"},
    {"LIN", 2, 1, "106", "advice without details"},
    {"LIN", 2, 1, "107", "advice with details"},
    {"PAI", 1, 3, "20", "cheque"},
    {"PAI", 1, 3, "21", "banker's draft"},
    {"PAI", 1, 3, "52", "urgent commercial payment"},
    {"PRC", 1, 1, "8", "documents"},
    {"PRC", 1, 1, "9", "documents, and the same as text"},
    {"PRC", 1, 1, "10", "documents, and other text"},
    {"PRC", 1, 1, "11", "text"},
};

static int is_qualified(const char *tag)
{
    return strstr(qualified, tag) != NULL;
}

void put_label(slice segment, const char *tag, marks m)
{
    slice qualifier = component(segment, 1, 1, m);

    for (size_t k = 0; k < sizeof labels / sizeof *labels; k++) {
        int any = *labels[k].qualifier == '\0';
        if (strcmp(labels[k].tag, tag) != 0 || !(any || is_text(qualifier, labels[k].qualifier, m)))
            continue;
        put_words(labels[k].words);
        if (!any || !is_qualified(tag) || qualifier.length == 0)
            return;
        putchar(' ');
        put_value(qualifier, m);
        return;
    }
    put_words(tag);
}

/* A date of the form 102 or 203, taken apart; any other value as it is. */
static void put_date(slice value, slice form, marks m)
{
    const char *d = (const char *)value.first;

    if (is_text(form, "102", m) && is_digits(value, 8))
        printf("%.4s-%.2s-%.2s", d, d + 4, d + 6);
    else if (is_text(form, "203", m) && is_digits(value, 12))
        printf("%.4s-%.2s-%.2s %.2s:%.2s", d, d + 4, d + 6, d + 8, d + 10);
    else
        put_value(value, m);
}

/* What a code means, then the code itself; 0 if the guides do not say it here. */
static int put_meaning(const components *c, const char *tag)
{
    for (size_t k = 0; k < sizeof meanings / sizeof *meanings; k++) {
        if (strcmp(meanings[k].tag, tag) != 0 || meanings[k].element != c->element || meanings[k].component != c->component
            || !is_text(c->found, meanings[k].code, c->m))
            continue;
        put_words(meanings[k].words);
        printf(" (%s)", meanings[k].code);
        return 1;
    }
    return 0;
}

/* Whether a value is shown, and what goes before it. */
static int is_shown(const components *c, const char *tag, const char **words)
{
    *words = "";
    if (c->element == 0 || c->found.length == 0 || (c->element == 1 && c->component == 1 && is_qualified(tag)))
        return 0;
    for (size_t k = 0; k < sizeof before / sizeof *before; k++)
        if (strcmp(before[k].tag, tag) == 0 && before[k].element == c->element && before[k].component == c->component)
            *words = before[k].words;
    return *words != NULL;
}

int has_values(slice segment, const char *tag, marks m)
{
    components c = components_of(segment, m);
    const char *words;

    while (next_component(&c))
        if (is_shown(&c, tag, &words))
            return 1;
    return 0;
}

void put_values(slice segment, const char *tag, marks m)
{
    components c = components_of(segment, m);
    const char *words;
    int count = 0;

    if (strcmp(tag, "MOA") == 0 && component(segment, 1, 2, m).length > 0) {
        put_amount(segment, m);
        return;
    }
    while (next_component(&c)) {
        if (!is_shown(&c, tag, &words))
            continue;
        put_words(count++ == 0 ? "" : ", ");
        put_words(words);
        if (strcmp(tag, "DTM") == 0 && c.element == 1 && c.component == 2)
            put_date(c.found, component(segment, 1, 3, m), m);
        else if (!put_meaning(&c, tag))
            put_value(c.found, m);
    }
    if (count == 0)
        put_words("not given");
}

void put_amount(slice segment, marks m)
{
    put_value(component(segment, 1, 2, m), m);
    putchar(' ');
    put_value(component(segment, 1, 3, m), m);
}
