"""The words of stm32flash 0.7 over stmflash."""
