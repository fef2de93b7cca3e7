/* What crate speed does, in C: builds the book of a text again and again. Standard input has a letter, four digits and a LF, and then a
   book text: after k the forests are kept between offers, after o they are all rooted afresh before each, after t the text is only
   read. (It is read each time.) */
#define main report_main
#include "report.c"
#undef main

static int one_more(int what)
{
    uint16_t circuit[MOST_KEPT];
    int line_number;
    at = text + 6;
    if (read_text(&line_number))
        return 0;
    if (what == 't')
        return number_of_edges;
    plain_open(&book, a, b, bodies);
    for (int e = 0; e < number_of_edges; e++) {
        if (what == 'o')
            plain_root(&book);
        plain_offer(&book, edges[e].u, edges[e].v, edges[e].colour, circuit);
    }
    return book.forest[0] * 10 + book.forest[200];
}

int main(void)
{
    int length = 0, sum = 0;
    for (ssize_t got; length < MOST_TEXT && (got = read(0, text + length, MOST_TEXT - length)) > 0;)
        length += got;
    end = text + length;
    int times = (text[1] - '0') * 1000 + (text[2] - '0') * 100 + (text[3] - '0') * 10 + (text[4] - '0');
    for (int i = 0; i < times; i++)
        sum = (sum + one_more(text[0])) % 1000003;
    number(sum);
    word("\n");
    flush();
    return 0;
}
