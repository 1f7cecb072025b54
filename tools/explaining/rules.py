"""The ids of Vulkan's valid usage behind each fault, as docs/VULKAN.md has them."""

SEMAPHORE_FAULTS = {
    'no signal': ['VUID-vkQueueSubmit2-semaphore-03873'],
    'signaled twice': ['VUID-vkQueueSubmit2-semaphore-03868'],
    'fence used': ['VUID-vkQueueSubmit2-fence-04894', 'VUID-vkQueueSubmit2-fence-04895'],
    'fence busy': ['VUID-vkResetFences-pFences-01123'],
    'overlap': ['VUID-vkCmdCopyBuffer-pRegions-00117'],
}
RANGES = {
    'fill': ['VUID-vkCmdFillBuffer-dstOffset-00024', 'VUID-vkCmdFillBuffer-dstOffset-00025',
             'VUID-vkCmdFillBuffer-size-00026', 'VUID-vkCmdFillBuffer-size-00027', 'VUID-vkCmdFillBuffer-size-00028'],
    'update': ['VUID-vkCmdUpdateBuffer-dstOffset-00032', 'VUID-vkCmdUpdateBuffer-dstOffset-00036',
               'VUID-vkCmdUpdateBuffer-dataSize-00033', 'VUID-vkCmdUpdateBuffer-dataSize-00037',
               'VUID-vkCmdUpdateBuffer-dataSize-00038'],
    'copy': ['VUID-vkCmdCopyBuffer-srcOffset-00113', 'VUID-vkCmdCopyBuffer-dstOffset-00114',
             'VUID-vkCmdCopyBuffer-size-00115', 'VUID-vkCmdCopyBuffer-size-00116', 'VUID-VkBufferCopy-size-01988'],
}
BATCH_SIGNAL, HOST_SIGNAL = 'VUID-VkSubmitInfo2-semaphore-03882', 'VUID-VkSemaphoreSignalInfo-value-03258'
HOST_SIGNAL_PENDING = 'VUID-VkSemaphoreSignalInfo-value-03259'


def rule_ids(page):
    """The ids of the rules that a refusal may break; none where Vulkan has no id, or the rule is the profile's."""
    kind, lines = page.verdict.kind, page.verdict.lines
    words = [page.lines[line - 1].split('#')[0].split() for line in lines if line <= len(page.lines)]
    if kind in SEMAPHORE_FAULTS:
        return SEMAPHORE_FAULTS[kind]
    if kind == 'range' and words and words[0]:
        return RANGES.get(words[0][0], [])
    if kind == 'unordered':
        if any(line[0] == 'wait' for line in words):
            return SEMAPHORE_FAULTS['signaled twice']
        hosts = any(line[0] == 'host' for line in words)
        batches = any(line[0] == 'signal' for line in words)
        return [BATCH_SIGNAL] * batches + [HOST_SIGNAL, HOST_SIGNAL_PENDING] * hosts
    return []
