s/if (\*count != UINT32_MAX)/if (1)/
