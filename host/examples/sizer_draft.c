/* The driver of sizer_draft.h, written to document 000. It knows nothing of the model. */
#include <stddef.h>
#include "sizer_draft.h"

/* From the cookie, when the first card is opened. */
static const struct pci_entry_points *bios;

LONG sizer_draft_read(const struct sizer_draft *card, ULONG bin, ULONG *samples) {
    return bios->read_mem_longword(card->handle, card->bins + 4 * bin, samples);
}

/* The fault of the incident stands here too: nothing asks whether the card has such a bin, nor what
   the read answered. The draft has no fast read of a window. */
static LONG count_sample(const struct sizer_draft *card, ULONG bin) {
    ULONG samples;
    sizer_draft_read(card, bin, &samples);
    samples++;
    return bios->write_mem_longword(card->handle, card->bins + 4 * bin, &samples);
}

static LONG sizer_draft_interrupt(LONG *value, LONG internal) {
    struct sizer_draft *card = (struct sizer_draft *)(void *)value;
    if (card->sample != SIZER_DRAFT_NO_SAMPLE) {
        card->answer = count_sample(card, (ULONG)card->sample);
        card->sample = SIZER_DRAFT_NO_SAMPLE;
        internal |= 1;
    }
    return internal;
}

/* The bins are the card's first window, at its PCI address plus the offset for the CPU. */
static LONG find_bins(struct sizer_draft *card) {
    intptr_t resources = bios->get_resource(card->handle);
    if (resources < 0)
        return (LONG)resources;
    const struct resource_descriptor *rsc = (const struct resource_descriptor *)resources;
    if ((rsc->flags & RSC_IO) || !(rsc->flags & FLG_32BIT) || rsc->length < 4 * SIZER_DRAFT_BINS)
        return PCI_GENERAL_ERROR;
    card->bins = rsc->start + rsc->offset;
    return PCI_SUCCESSFUL;
}

LONG sizer_draft_open(struct sizer_draft *card, UWORD index) {
    bios = pci_find_cookie(PCI_COOKIE);
    if (bios == NULL || bios->version != PCI_COOKIE_VERSION)
        return PCI_FUNC_NOT_SUPPORTED;
    card->handle = bios->find_pci_device(SIZER_DRAFT_ID, index);
    if (card->handle < 0)
        return card->handle;
    card->sample = SIZER_DRAFT_NO_SAMPLE;
    LONG error = find_bins(card);
    if (error == PCI_SUCCESSFUL)
        error = bios->hook_interrupt(card->handle, sizer_draft_interrupt, card);
    return error != PCI_SUCCESSFUL ? error : bios->set_card_used(card->handle, PCI_CARD_IN_USE);
}

LONG sizer_draft_close(struct sizer_draft *card) {
    LONG error = bios->unhook_interrupt(card->handle);
    return error != PCI_SUCCESSFUL ? error : bios->set_card_used(card->handle, PCI_CARD_FREE);
}
