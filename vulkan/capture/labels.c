/* Names and labels that the application gives (VK_EXT_debug_utils), as comments. */
#include "capture.h"

enum { MOST_NAME = 120 };

/* A name without the bytes that aren't printed. */
static const char *printed(char to[MOST_NAME + 1], const char *name)
{
    size_t size = 0;
    for (; name && name[size] != '\0' && size < MOST_NAME; size++)
        to[size] = name[size] >= ' ' && name[size] <= '~' ? name[size] : '?';
    to[size] = '\0';
    return to;
}

VKAPI_ATTR VkResult VKAPI_CALL capture_SetDebugUtilsObjectNameEXT(VkDevice device,
                                                                  const VkDebugUtilsObjectNameInfoEXT *info)
{
    struct device *d = device_of(device);
    char name[MOST_NAME + 1];
    lock_recorder();
    bool is_buffer = info->objectType == VK_OBJECT_TYPE_COMMAND_BUFFER;
    const struct commands *l = is_buffer ? table_get(&d->tables[COMMANDS], info->objectHandle) : NULL;
    const struct thing *t = is_buffer ? NULL : find(d, info->objectHandle);
    if (l)
        write_line("# C%u is \"%s\"\n", l->number, printed(name, info->pObjectName));
    else if (t)
        write_line("# %c%u is \"%s\"\n", t->letter, t->number, printed(name, info->pObjectName));
    unlock_recorder();
    return d->calls.SetDebugUtilsObjectNameEXT ? d->calls.SetDebugUtilsObjectNameEXT(device, info) : VK_SUCCESS;
}

VKAPI_ATTR void VKAPI_CALL capture_CmdBeginDebugUtilsLabelEXT(VkCommandBuffer handle, const VkDebugUtilsLabelEXT *label)
{
    struct device *d = device_of(handle);
    char name[MOST_NAME + 1];
    struct commands *l = begin_state(d, handle, "vkCmdBeginDebugUtilsLabelEXT");
    if (l && l->label_count < MOST_LABELS)
        snprintf(l->labels[l->label_count], LABEL_TEXT, "%.*s", LABEL_TEXT - 1, printed(name, label->pLabelName));
    if (l)
        l->label_count++;
    end_command();
    if (d->calls.CmdBeginDebugUtilsLabelEXT)
        d->calls.CmdBeginDebugUtilsLabelEXT(handle, label);
}

VKAPI_ATTR void VKAPI_CALL capture_CmdEndDebugUtilsLabelEXT(VkCommandBuffer handle)
{
    struct device *d = device_of(handle);
    struct commands *l = begin_state(d, handle, "vkCmdEndDebugUtilsLabelEXT");
    if (l && l->label_count > 0)
        l->label_count--;
    end_command();
    if (d->calls.CmdEndDebugUtilsLabelEXT)
        d->calls.CmdEndDebugUtilsLabelEXT(handle);
}

VKAPI_ATTR void VKAPI_CALL capture_CmdInsertDebugUtilsLabelEXT(VkCommandBuffer handle,
                                                               const VkDebugUtilsLabelEXT *label)
{
    struct device *d = device_of(handle);
    char name[MOST_NAME + 1];
    struct commands *l = begin_state(d, handle, "vkCmdInsertDebugUtilsLabelEXT");
    if (l)
        say(&l->text, "# \"%s\"\n", printed(name, label->pLabelName));
    end_command();
    if (d->calls.CmdInsertDebugUtilsLabelEXT)
        d->calls.CmdInsertDebugUtilsLabelEXT(handle, label);
}
