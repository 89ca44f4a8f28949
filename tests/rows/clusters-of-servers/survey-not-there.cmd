verify --survey none.survey
