/* The driver of sizer.h, written to document 003. It knows nothing of the model. */
#include <stddef.h>
#include "sizer.h"

LONG sizer_read(const struct sizer *card, ULONG bin, ULONG *samples) {
    return read_mem_longword(card->handle, card->bins + 4 * bin, samples);
}

/* The fault of the incident stands here on purpose: nothing asks whether the card has such a bin.
   Document 003 has the fast reads for interrupts; what they give for a bin that is not there is
   no number of samples. */
static LONG count_sample(const struct sizer *card, ULONG bin) {
    ULONG address = card->bins + 4 * bin;
    return write_mem_longword(card->handle, address,
                              fast_read_mem_longword(card->handle, address) + 1);
}

/* Both cards share a line, so each handler first asks whether the interrupt is its card's. */
static LONG sizer_interrupt(LONG *value, LONG internal) {
    struct sizer *card = (struct sizer *)(void *)value;
    if (card->sample == SIZER_NO_SAMPLE)
        return internal;
    card->answer = count_sample(card, (ULONG)card->sample);
    card->sample = SIZER_NO_SAMPLE;
    return internal | 1;
}

/* The first memory window that is accessible, takes longwords and has room for the bins; or NULL
   where there is none. */
static const struct resource_descriptor *find_bins(const struct resource_descriptor *rsc) {
    for (;;) {
        if (!(rsc->flags & RSC_IO) && (rsc->flags & FLG_32BIT) && rsc->start != 0 &&
            rsc->length >= 4 * SIZER_BINS)
            return rsc;
        if ((rsc->flags & RSC_LAST) || rsc->next == 0)
            return NULL;
        rsc = (const struct resource_descriptor *)(const void *)((const UBYTE *)rsc + rsc->next);
    }
}

LONG sizer_open(struct sizer *card, UWORD index) {
    LONG handle = find_pci_device(SIZER_ID, index);
    if (handle < 0)
        return handle;
    intptr_t resources = get_resource(handle);
    if (resources < 0)
        return (LONG)resources;
    const struct resource_descriptor *bins =
        find_bins((const struct resource_descriptor *)resources);
    if (bins == NULL)
        return PCI_GENERAL_ERROR;
    *card = (struct sizer){handle, bins->start, SIZER_NO_SAMPLE, PCI_SUCCESSFUL};
    LONG error = hook_interrupt(handle, sizer_interrupt, card);
    return error != PCI_SUCCESSFUL ? error : set_card_used(handle, PCI_CARD_IN_USE);
}

LONG sizer_close(struct sizer *card) {
    LONG error = unhook_interrupt(card->handle);
    return error != PCI_SUCCESSFUL ? error : set_card_used(card->handle, PCI_CARD_FREE);
}
