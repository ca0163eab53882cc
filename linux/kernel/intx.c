// SPDX-License-Identifier: GPL-2.0-only
/* Gives the INTx interrupt of each PCI card in a User-mode Linux kernel a chip and a handler. virt-pci.c of Linux
 * allocates its number, and forgets these: without them request_irq answers -ENOSYS. It has to be loaded before a link
 * goes up. */
#include <linux/irq.h>
#include <linux/module.h>
#include <linux/pci.h>

static int __init intx_init(void)
{
	struct pci_dev *card = NULL;

	while ((card = pci_get_device(PCI_ANY_ID, PCI_ANY_ID, card)) != NULL)
		irq_set_chip_and_handler(card->irq, &dummy_irq_chip, handle_simple_irq);
	return 0;
}

module_init(intx_init);
MODULE_DESCRIPTION("INTx of PCI cards in User-mode Linux");
MODULE_LICENSE("GPL");
