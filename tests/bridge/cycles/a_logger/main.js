import { logger } from './log.js';
logger.init();
export const level = settings.level;
logger.log('ready');
