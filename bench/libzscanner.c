/* Scans a zone file with Knot's libzscanner, and does nothing with its records: what a scan alone costs, without a zone's rules. */
#include <libzscanner/scanner.h>
#include <stdio.h>
#include <stdlib.h>

static unsigned long records, faults;

static void count_record(zs_scanner_t *scanner)
{
	(void)scanner;
	records++;
}

static void count_fault(zs_scanner_t *scanner)
{
	(void)scanner;
	faults++;
}

int main(int count, char **words)
{
	static zs_scanner_t scanner;

	if (count != 3 || zs_init(&scanner, words[2], 1, 3600) != 0 || zs_set_processing(&scanner, count_record, count_fault, NULL) != 0
	    || zs_set_input_file(&scanner, words[1]) != 0) {
		fprintf(stderr, "usage: libzscanner ZONEFILE ORIGIN\n");
		return 2;
	}
	zs_parse_all(&scanner);
	zs_deinit(&scanner);
	printf("%lu\n", records);
	return faults == 0 ? 0 : 1;
}
