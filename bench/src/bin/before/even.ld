/* Each function starts a cache line. Where in a line its loops start can make a call a tenth slower or faster, and
   without this chance decides it, differently for each archive. */
SECTIONS
{
    .text.even : SUBALIGN(64) { *(.text.*) }
}
INSERT AFTER .text;
